:-not pooled(w1).
:-not pooled(w2).
:-not pooled(w3).
:-not pooled(w4).
:-not pooled(w5).
:-not pooled(w6).
:-not pooled(w7).
:-not pooled(w8).
:-not pooled(w9).
:-not pooled(w10).
:-not pooled(w11).
:-not pooled(w12).
:-not pooled(w13).
:-not pooled(w14).
:-not pooled(w15).
:-not pooled(w16).
:-not pooled(w17).
:-not pooled(w18).
:-not pooled(w19).
:-not recalled.
c_pooled(w1).
c_pooled(w2).
c_pooled(w3).
c_pooled(w4).
c_pooled(w5).
c_pooled(w6).
c_pooled(w7).
c_pooled(w8).
c_pooled(w9).
c_pooled(w10).
c_pooled(w11).
c_pooled(w12).
c_pooled(w13).
c_pooled(w14).
c_pooled(w15).
c_pooled(w16).
c_pooled(w17).
c_pooled(w18).
c_pooled(w19).
c_recalled.
:-pooled(X0),not c_pooled(X0).
:-recalled,not c_recalled.
