% Lists. `+` marks an argument that is known when the call is reduced, `-` one that comes out, `?` either. "Determinate" says that the call
% makes no fork: it has one candidate at each step. A list is "proper" where its length is known; its elements may be variables.

% append(?Xs, ?Ys, ?Zs): Zs is Xs and then Ys. Determinate where Xs is proper. Where only Zs is, it has an answer for each place to cut; where
% Xs and Zs are open it has no end.
append([], Ys, Ys).
append([X|Xs], Ys, [X|Zs]) :- append(Xs, Ys, Zs).

% member(?X, ?Xs): X is an element of Xs; an answer for each place. Makes a fork at each place where X may be, but for the last.
member(X, [Y|Ys]) :- member(X, Y, Ys).
member(X, X, _).
member(X, _, [Y|Ys]) :- member(X, Y, Ys).

% select(?X, ?Xs, ?Ys): Ys is Xs without one X; an answer for each place. Forks as member/2 does. Ends where Xs or Ys is proper.
select(X, [X|Xs], Xs).
select(X, [Y|Ys], [Y|Zs]) :- select(X, Ys, Zs).

% permutation(?Xs, ?Ys): Ys has the elements of Xs in some order. Ends where one of the two is proper.
permutation(Xs, Ys) :- same_length(Xs, Ys), permute(Xs, Ys).
permute([], []).
permute(Xs, [Y|Ys]) :- select(Y, Xs, Rest), permute(Rest, Ys).

% same_length(?Xs, ?Ys): both have as many elements. Determinate where one of the two is proper.
same_length([], []).
same_length([_|Xs], [_|Ys]) :- same_length(Xs, Ys).

% reverse(?Xs, ?Ys): Ys is Xs from its end. Determinate where one of the two is proper.
reverse(Xs, Ys) :- reverse(Xs, Ys, [], Ys).
reverse([], [], Ys, Ys).
reverse([X|Xs], [_|Bound], Before, Ys) :- reverse(Xs, Bound, [X|Before], Ys).

% length(?Xs, ?N): Xs has N elements. Determinate where N is known or Xs is proper. Give N first, as in `length(Xs, 8), safe(Xs)`: it shapes the
% list before anything waits for its elements. A list with an open end and an open N have no end of answers.
length([], 0).
length([_|Xs], N) :- N > 0, M is N - 1, N is M + 1, length(Xs, M).

% nth0(?N, ?Xs, ?X): X is the element of Xs at place N, counted from 0. Determinate where N is known; else an answer for each place.
nth0(0, [X|_], X).
nth0(N, [_|Xs], X) :- N > 0, M is N - 1, N is M + 1, nth0(M, Xs, X).

% nth1(?N, ?Xs, ?X): the same, counted from 1.
nth1(N, Xs, X) :- M is N - 1, N is M + 1, nth0(M, Xs, X).

% last(?Xs, ?X): X is the last element of Xs. Determinate where Xs is proper.
last([X|Xs], Y) :- last(Xs, X, Y).
last([], X, X).
last([X|Xs], _, Y) :- last(Xs, X, Y).

% delete(+Xs, +N, ?Ys): Ys is Xs without each N. Determinate. For whole numbers alone: =\= has no value for names, and then there is no
% answer; delete_name/3 of lib/names.pl is for names. SWI-Prolog's takes out whatever can be made equal.
delete([], _, []).
delete([N|Xs], N, Ys) :- delete(Xs, N, Ys).
delete([X|Xs], N, [X|Ys]) :- X =\= N, delete(Xs, N, Ys).

% subset(?Xs, +Ys): each element of Xs is one of Ys. An answer for each choice of places: SWI-Prolog's has a cut and takes the first.
% Give Xs a length first where it is open.
subset([], _).
subset([X|Xs], Ys) :- member(X, Ys), subset(Xs, Ys).

% zip(?Xs, ?Ys, ?Pairs): Pairs is [X-Y,..] of the elements at equal places. Determinate where one of the three is proper.
zip([], [], []).
zip([X|Xs], [Y|Ys], [X-Y|Pairs]) :- zip(Xs, Ys, Pairs).

% msort(+Numbers, ?Sorted): the numbers from the least on, none left out. Determinate, as its guards decide each step. SWI-Prolog's sorts any terms.
msort([], []).
msort([X], [X]).
msort([X,Y|Zs], Sorted) :- halves([X,Y|Zs], As, Bs), msort(As, Cs), msort(Bs, Ds), merge(Cs, Ds, Sorted).

% halves(?Xs, ?As, ?Bs): As is each other element of Xs from the first on, Bs the rest. Determinate where one of the three is proper.
halves([], [], []).
halves([X|Xs], [X|As], Bs) :- halves(Xs, Bs, As).

% merge(+Xs, +Ys, ?Zs): two sorted lists of numbers as one. Determinate.
merge([], Ys, Ys).
merge([X|Xs], [], [X|Xs]).
merge([X|Xs], [Y|Ys], [X|Zs]) :- X =< Y, merge(Xs, [Y|Ys], Zs).
merge([X|Xs], [Y|Ys], [Y|Zs]) :- X > Y, merge([X|Xs], Ys, Zs).

% sum_list(?Xs, ?Sum): the sum of the numbers in Xs. Determinate where Xs is proper; waits until its elements are numbers.
sum_list(Xs, Sum) :- sum_list(Xs, 0, Sum).
sum_list([], Sum, Sum).
sum_list([X|Xs], Before, Sum) :- Next is Before + X, sum_list(Xs, Next, Sum).

% max_list(?Xs, ?Max), min_list(?Xs, ?Min): the largest and the least number of Xs, which is not empty. Determinate where Xs is proper.
max_list([X|Xs], Max) :- max_list(Xs, X, Max).
max_list([], Max, Max).
max_list([X|Xs], Before, Max) :- Next is max(Before, X), max_list(Xs, Next, Max).
min_list([X|Xs], Min) :- min_list(Xs, X, Min).
min_list([], Min, Min).
min_list([X|Xs], Before, Min) :- Next is min(Before, X), min_list(Xs, Next, Min).
