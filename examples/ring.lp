% Two sites report that they passed a unit to each other, and no record says where it was drawn.
moved(w2001, south, west). moved(w2001, west, south).
given(w2001, west, p5). implicated(w2001).

held(Unit, Site) :- drawn(Unit, Site).
held(Unit, To) :- held(Unit, From), moved(Unit, From, To).
received(Patient, Unit) :- given(Unit, Site, Patient), held(Unit, Site).
notify(Patient) :- received(Patient, Unit), implicated(Unit).
