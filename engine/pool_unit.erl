%% Reads the two inputs of a run: an object code file, which `pool build` writes, and a placement. docs/REFERENCE.md describes both.
%% `pool build` made the file, so nothing is checked here that the verifier checks.
-module(pool_unit).
-export([read/1, placement/1]).
-export_type([unit/0, class/0, method/0, instruction/0, alternative/0, placement/0, place/0]).

%% The root class, and each class by its name.
-type unit() :: {binary(), #{binary() => class()}}.
-type class() :: {class, Variables :: non_neg_integer(), #{binary() => method()}, code()}.
%% The number of parameters and locals, the number of parameters, and the code.
-type method() :: {method, non_neg_integer(), non_neg_integer(), code()}.
-type code() :: tuple().
%% Places, variables and locals are counted from 1.
-type instruction() ::
    {push, integer() | boolean() | nil} | {jump, pos_integer()} | {branch, pos_integer()} | loop | pop | self | ret | post | halt
  | {load_variable | load_local | store_variable | store_local, pos_integer()} | {unary | binary, atom()}
  | {call | new, binary()} | {send | async, binary(), non_neg_integer()} | write | {write_text, binary()}
  | {answer, [binary()]} | {select, [alternative()]}.
-type alternative() :: {plain | [binary()], pos_integer()}.
%% The number of nodes, and where the objects of a class are made; without an entry it is `same`.
-type placement() :: {pos_integer(), #{binary() => place()}}.
-type place() :: same | spread | {at, non_neg_integer()}.

%% Reads an object code file.
-spec read(file:name_all()) -> unit().
read(File) ->
    {ok, <<"POOLU", 1, Bytes/binary>>} = file:read_file(File),
    {Texts, Rest} = list(fun text/1, Bytes),
    Names = list_to_tuple(Texts),
    {Classes, <<>>} = list(fun(B) -> class(B, Names) end, Rest),
    {Root, _} = lists:last(Classes),
    {Root, maps:from_list(Classes)}.

list(Item, <<N:32, Bytes/binary>>) -> items(Item, N, Bytes, []).

items(_, 0, Bytes, Items) -> {lists:reverse(Items), Bytes};
items(Item, N, Bytes, Items) ->
    {One, Rest} = Item(Bytes),
    items(Item, N - 1, Rest, [One | Items]).

text(<<N:32, Text:N/binary, Rest/binary>>) -> {binary:copy(Text), Rest}.

%% A name is a number in the table of names.
name(<<N:32, Rest/binary>>, Names) -> {element(N + 1, Names), Rest}.
names(Bytes, Names) -> list(fun(B) -> name(B, Names) end, Bytes).

kind(<<3, _:32, Rest/binary>>) -> {kind, Rest};
kind(<<_, Rest/binary>>) -> {kind, Rest}.

class(B0, Names) ->
    {Name, B1} = name(B0, Names),
    {Variables, B2} = list(fun kind/1, B1),
    {Methods, B3} = list(fun(B) -> method(B, Names) end, B2),
    {Code, B4} = code(B3, Names),
    {{Name, {class, length(Variables), maps:from_list(Methods), Code}}, B4}.

method(B0, Names) ->
    {Name, <<Parameters:32, B1/binary>>} = name(B0, Names),
    {Locals, <<HasResult, B2/binary>>} = list(fun kind/1, B1),
    {_, B3} = case HasResult of 0 -> {none, B2}; 1 -> kind(B2) end,
    {Code, B4} = code(B3, Names),
    {{Name, {method, length(Locals), Parameters, Code}}, B4}.

%% The size of the frame comes first.
code(<<_:32, B0/binary>>, Names) ->
    {Code, B1} = list(fun(B) -> instruction(B, Names) end, B0),
    {list_to_tuple(Code), B1}.

instruction(<<1, Z:64/signed, B/binary>>, _) -> {{push, Z}, B};
instruction(<<2, V, B/binary>>, _) -> {{push, V =:= 1}, B};
instruction(<<3, B/binary>>, _) -> {{push, nil}, B};
instruction(<<4, A:32, B/binary>>, _) -> {{jump, A + 1}, B};
instruction(<<5, I:32, B/binary>>, _) -> {{load_variable, I + 1}, B};
instruction(<<6, I:32, B/binary>>, _) -> {{load_local, I + 1}, B};
instruction(<<7, B/binary>>, _) -> {self, B};
instruction(<<8, I:32, B/binary>>, _) -> {{store_variable, I + 1}, B};
instruction(<<9, I:32, B/binary>>, _) -> {{store_local, I + 1}, B};
instruction(<<10, Op, B/binary>>, _) -> {operator(Op), B};
instruction(<<11, B/binary>>, _) -> {pop, B};
instruction(<<12, A:32, B/binary>>, _) -> {{branch, A + 1}, B};
instruction(<<13, B/binary>>, _) -> {loop, B};
instruction(<<14, M:32, B/binary>>, Names) -> {{call, element(M + 1, Names)}, B};
instruction(<<15, B/binary>>, _) -> {ret, B};
instruction(<<16, C:32, B/binary>>, Names) -> {{new, element(C + 1, Names)}, B};
instruction(<<17, M:32, N:32, B/binary>>, Names) -> {{send, element(M + 1, Names), N}, B};
instruction(<<18, M:32, N:32, B/binary>>, Names) -> {{async, element(M + 1, Names), N}, B};
instruction(<<19, B/binary>>, _) -> {write, B};
instruction(<<20, T:32, B/binary>>, Names) -> {{write_text, element(T + 1, Names)}, B};
instruction(<<21, B0/binary>>, Names) -> {Listed, B} = names(B0, Names), {{answer, Listed}, B};
instruction(<<22, B0/binary>>, Names) -> {Alternatives, B} = list(fun(A) -> alternative(A, Names) end, B0), {{select, Alternatives}, B};
instruction(<<23, B/binary>>, _) -> {halt, B};
instruction(<<24, B/binary>>, _) -> {post, B}.

operator(6) -> {unary, '-'};
operator(15) -> {unary, 'not'};
operator(Op) -> {binary, element(Op, {'+', '-', '*', '/', '%', none, '<', '<=', '>', '>=', '==', '!=', 'and', 'or'})}.

alternative(<<0, A:32, B/binary>>, _) -> {{plain, A + 1}, B};
alternative(<<1, B0/binary>>, Names) ->
    {Listed, <<A:32, B/binary>>} = names(B0, Names),
    {{Listed, A + 1}, B}.

%% Reads a placement: its `mesh` and `place` lines. The other lines are about limits and links of the placed machine.
-spec placement(file:name_all()) -> placement().
placement(File) ->
    {ok, Bytes} = file:read_file(File),
    Lines = [binary:split(Line, [<<" ">>, <<"\t">>, <<"\r">>], [global, trim_all]) || Line <- binary:split(Bytes, <<"\n">>, [global])],
    [Nodes] = [binary_to_integer(W) * binary_to_integer(H) || [<<"mesh">>, W, H] <- Lines],
    {Nodes, maps:from_list([{Class, place(Where)} || [<<"place">>, Class | Where] <- Lines])}.

place([<<"same">>]) -> same;
place([<<"spread">>]) -> spread;
place([<<"at">>, Node]) -> {at, binary_to_integer(Node)}.
