:-not unit(w1).
:-not unit(w2).
:-not unit(w3).
:-not unit(w4).
:-not given(w1,north,p1).
:-not given(w2,south,p2).
:-not given(w3,north,p3).
:-not given(w4,south,p4).
:-not issued(w1,north).
:-not issued(w2,south).
:-not issued(w3,north).
:-not issued(w4,south).
:-not received(p1,w1).
:-not received(p2,w2).
:-not received(p3,w3).
:-not received(p4,w4).
:-not notify(p1).
:-not notify(p2).
:-not notify(p3).
:-not notify(p4).
c_unit(w1).
c_unit(w2).
c_unit(w3).
c_unit(w4).
c_given(w1,north,p1).
c_given(w2,south,p2).
c_given(w3,north,p3).
c_given(w4,south,p4).
c_issued(w1,north).
c_issued(w2,south).
c_issued(w3,north).
c_issued(w4,south).
c_received(p1,w1).
c_received(p2,w2).
c_received(p3,w3).
c_received(p4,w4).
c_notify(p1).
c_notify(p2).
c_notify(p3).
c_notify(p4).
:-given(X0,X1,X2),not c_given(X0,X1,X2).
:-issued(X0,X1),not c_issued(X0,X1).
:-notify(X0),not c_notify(X0).
:-received(X0,X1),not c_received(X0,X1).
:-unit(X0),not c_unit(X0).
