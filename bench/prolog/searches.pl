% The searches of ../sheets for GNU Prolog, each in the order in which the box tries values and tests.
%
%   searches NAME TIMES NUMBER..    runs the search TIMES times and prints how many answers it has
%
% A cell is a logical variable, an array a term with one argument for each element, `some` is between/3 and `all` a recursion,
% so that unification gives a value once, as `eq` does. Elements count from 1 here.

:- initialization(main).

main :-
    argument_list([Name, Times | Numbers]),
    number_atom(Count, Times),
    numbers(Numbers, Sizes),
    Goal =.. [Name | Sizes],
    repeated(Count, Goal, Answers),
    format("answers=~d~n", [Answers]).

numbers([], []).
numbers([Atom | Atoms], [Number | Numbers]) :- number_atom(Number, Atom), numbers(Atoms, Numbers).

repeated(Times, Goal, Answers) :-
    between(1, Times, Time),
    g_assign(answers, 0),
    all_answers(Goal),
    Time =:= Times, !,
    g_read(answers, Answers).

all_answers(Goal) :- call(Goal), g_inc(answers), fail.
all_answers(_).

% ---- queens: rows in order, columns rising, each tested against the rows before it

queens(N) :- functor(Board, board, N), rows(1, N, Board).

rows(Row, N, _) :- Row > N, !.
rows(Row, N, Board) :-
    between(1, N, Column),
    arg(Row, Board, Column),
    safe(1, Row, Column, Board),
    Next is Row + 1,
    rows(Next, N, Board).

safe(Row, Row, _, _) :- !.
safe(Earlier, Row, Column, Board) :-
    arg(Earlier, Board, Other),
    Other =\= Column,
    Other - Column =\= Row - Earlier,
    Column - Other =\= Row - Earlier,
    Next is Earlier + 1,
    safe(Next, Row, Column, Board).

% ---- arithmetic

arithmetic(N) :-
    between(1, N, X),
    between(1, 1000, Y),
    ((((X * 31 + Y) rem 10007 * 17 + X) rem 10007 * 13 - Y) rem 101) // 7 =:= 5.

% ---- arrays

arrays(N) :-
    functor(Array, array, 128),
    fill(0, Array),
    between(0, 127, I),
    between(0, 127, J),
    between(0, N, K),
    element(J, Array, A), element(A, Array, B), element(B, Array, C),
    element(I, Array, D),
    C =:= D + K.

fill(128, _) :- !.
fill(I, Array) :-
    X is (I * 37 + 11) rem 128,
    element(I, Array, X),
    Next is I + 1,
    fill(Next, Array).

element(I, Array, X) :- Place is I + 1, arg(Place, Array, X).

% ---- primes: an inner search under `not`

primes(N) :-
    between(2, N, P),
    Last is P - 1,
    \+ (between(2, Last, D), P rem D =:= 0).

% ---- chain: an `all` walked again and again

chain(Times, Length) :- between(1, Times, _), link(1, Length).

link(I, Length) :- I > Length, !.
link(I, Length) :- I =\= 0, Next is I + 1, link(Next, Length).

% ---- unknown: `not` over a cell without a value

unknown(N) :-
    between(1, N, X),
    between(1, 1000, Y),
    \+ (X + Y < 3, _ = X).

% ---- ranged: a cell that may have 500 of 1,000 values

ranged(N) :-
    between(1, N, _),
    between(0, 999, Y),
    Y >= 0, Y =< 499, Cell = Y,
    Cell < -1.

% ---- rounding: arithmetic with divisions that round down

rounding(N) :-
    between(1, N, X),
    between(1, 1000, Y),
    ((((X * 31 + Y) mod 10007 * 17 + X) mod 10007 * 13 - Y) mod 101) div 7 =:= 5.
