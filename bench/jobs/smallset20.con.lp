:-not unit(w1).
:-not moved(w2,north,south).
:-not moved(w2,south,east).
:-not moved(w2,east,west).
:-not moved(w2,west,north).
:-not given(w2,north,p1).
:-not given(w2,south,p2).
:-not given(w2,east,p3).
:-not issued(w1,north).
:-not held(w1,north).
:-not held(w2,north).
:-not held(w2,south).
:-not held(w2,east).
:-not held(w2,west).
:-not received(p1,w2).
:-not received(p2,w2).
:-not received(p3,w2).
:-not notify(p1).
:-not notify(p2).
:-not notify(p3).
c_unit(w1).
c_moved(w2,north,south).
c_moved(w2,south,east).
c_moved(w2,east,west).
c_moved(w2,west,north).
c_given(w2,north,p1).
c_given(w2,south,p2).
c_given(w2,east,p3).
c_issued(w1,north).
c_held(w1,north).
c_held(w2,north).
c_held(w2,south).
c_held(w2,east).
c_held(w2,west).
c_received(p1,w2).
c_received(p2,w2).
c_received(p3,w2).
c_notify(p1).
c_notify(p2).
c_notify(p3).
:-given(X0,X1,X2),not c_given(X0,X1,X2).
:-held(X0,X1),not c_held(X0,X1).
:-issued(X0,X1),not c_issued(X0,X1).
:-moved(X0,X1,X2),not c_moved(X0,X1,X2).
:-notify(X0),not c_notify(X0).
:-received(X0,X1),not c_received(X0,X1).
:-unit(X0),not c_unit(X0).
