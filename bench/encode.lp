% The outcomes of a rack as answer sets, for the order by position. to_facts.py writes a file's rules as these facts:
%   matter(A).  head(R, A, S).  sheet(R, I).  body(R, A, S).      S is 1 for yes, 0 for no

#defined head/3.
#defined sheet/2.
#defined body/3.

% Any set of matters may be tried; x is the two-valued set that it makes.
{ in(A) } :- matter(A).
x(A, 1) :- in(A).
x(A, 0) :- matter(A), not in(A).

% Which bodies are true in x, and which rules are broadly rejected.
false(R) :- body(R, A, S), not x(A, S).
true(R) :- sheet(R, _), not false(R).
rejected(R) :- head(R, A, S), sheet(R, I), head(Q, A, 1 - S), sheet(Q, J), J >= I, true(Q).

% The defaults, and the closure.
granted(A) :- head(R, A, 1), true(R).
got(A, 0) :- matter(A), not granted(A).
got(A, S) :- head(R, A, S), not rejected(R), got(B, T) : body(R, B, T).

% The closure is x.
:- x(A, S), not got(A, S).
:- got(A, S), not x(A, S).

#show in/1.
