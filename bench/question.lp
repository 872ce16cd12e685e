% The fewest faults that explain a log within n parallel steps, for clingo. bench/peers.py writes the facts.
%
%     clingo facts.lp question.lp -c n=STEPS
%
% component(C), initial(C,Q), move(C,Q,A,R), event(E), part(E,C,A), raises(E,L), fault(E); alarm(I), label(I,L), doubtful(I), before(I,J). Events whose label no alarm may have aren't among them.
#defined initial/2. #defined move/4. #defined part/3. #defined raises/2. #defined fault/1. #defined alarm/1. #defined label/2. #defined doubtful/1. #defined before/2. #defined event/1. #defined component/1.
step(1..n).

% The plant: events that touch no common component may share a step. Those that happen move their components, and the others stay.
{ happens(E,T) } :- event(E), step(T).
:- component(C), step(T), 2 { happens(E,T) : part(E,C,_) }.
does(C,A,T) :- happens(E,T), part(E,C,A).
moved(C,T) :- does(C,_,T).
1 { in(C,Q,0) : initial(C,Q) } 1 :- component(C).
in(C,Q,T) :- in(C,Q,T-1), step(T), not moved(C,T).
allows(C,Q,A) :- move(C,Q,A,_).
able(C,A,T) :- in(C,Q,T-1), allows(C,Q,A), step(T).
:- does(C,A,T), not able(C,A,T).
certain(C,Q,A) :- allows(C,Q,A), 1 { move(C,Q,A,_) } 1.
in(C,R,T) :- does(C,A,T), in(C,Q,T-1), move(C,Q,A,R), certain(C,Q,A).
1 { in(C,R,T) : move(C,Q,A,R) } 1 :- does(C,A,T), in(C,Q,T-1), allows(C,Q,A), not certain(C,Q,A).

% The log: in each step there are as many events of a label as alarms that stand for one. A doubtful alarm may be set aside, and keeps its place in the order.
seen(L) :- label(_,L), raises(_,L).
{ false(I) } :- doubtful(I).
1 { stands(I,L,T) : label(I,L), seen(L), step(T) } 1 :- alarm(I), not false(I).
1 { aside(I,T) : T = 0..n } 1 :- false(I).
done(I,T) :- stands(I,_,T).
done(I,T) :- aside(I,T).
done(I,T) :- done(I,T-1), step(T).
:- before(I,J), done(J,T), not done(I,T).
sole(L) :- seen(L), 1 { raises(_,L) } 1.
happens(E,T) :- stands(_,L,T), raises(E,L), sole(L).
:- happens(E,T), raises(E,L), sole(L), not 1 { stands(_,L,T) } 1.
:- seen(L), not sole(L), step(T), #sum { 1,event,E : happens(E,T), raises(E,L); -1,alarm,I : stands(I,L,T) } != 0.

#minimize { 1,E,T : happens(E,T), fault(E); 1,I : false(I) }.
#show happens/2. #show false/1.
