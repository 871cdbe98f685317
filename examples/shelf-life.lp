% Red cells keep for 42 days: a unit that was given later, or whose bag was never tested, is looked into.
drawn(w3001, 10). drawn(w3002, 31). drawn(w3003, 60).
given(w3001, 55, p1). given(w3002, 70, p2). given(w3003, 61, p8).
tested(w3001). tested(w3002).

age(Unit, Days) :- drawn(Unit, Day), given(Unit, Then, Patient), Days = Then - Day.
overdue(Unit) :- age(Unit, Days), Days > 42.
untested(Unit) :- given(Unit, Day, Patient), not tested(Unit).
look_into(Unit) :- overdue(Unit).
look_into(Unit) :- untested(Unit).
