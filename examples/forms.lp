% One rule of each form.
closed.                                                  % a fact; `closed().` is the same
drawn(w1, 10). drawn(w2, 31).                            % arguments: names and whole numbers ..
site(7, "St. Mary's").                                   % .. and strings; `"north"` and `north` are two values
given(w1, 55, p1). given(w2, 40, p2). offset(-1).
tested(w2).
seen(Unit) :- given(Unit, _, _).                         % variables; each `_` is one of its own
untested(Unit) :- seen(Unit), not tested(Unit).          % `not`: the fact is not on the list
-fit(Unit) :- untested(Unit).                            % `-fit` and `fit` are two predicates
age(Unit, Days) :- drawn(Unit, Day), given(Unit, Then, _), Days = Then - Day.
overdue(Unit) :- age(Unit, Days), Days > 42.             % arithmetic above, a comparison here
released(Unit) | returned(Unit) :- tested(Unit).         % several heads, at most 4: at least one holds
:- seen(Unit), recalled(Unit).                           % a rule with no head: this may not be
