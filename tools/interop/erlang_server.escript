#!/usr/bin/env escript
%% A server of Erlang's ssh on the loopback: prints its port, and serves until its input ends. `many` says 1,000,000 bytes, every other command its own
%% words. Its keys stand in the directory that is named.
-mode(compile).

main([Folder]) ->
    ok = logger:set_primary_config(level, error),
    {ok, _} = application:ensure_all_started(ssh),
    {ok, Daemon} = ssh:daemon(loopback, 0, [
        {system_dir, Folder},
        {user_dir, Folder},
        {user_passwords, [{"reader", "secret word"}]},
        {exec, {direct, fun answer/1}}
    ]),
    {ok, Info} = ssh:daemon_info(Daemon),
    io:format("~b~n", [proplists:get_value(port, Info)]),
    io:get_line("").

answer("many") -> {ok, lists:duplicate(1000000, $x)};
answer(Words) -> {ok, Words ++ "\n"}.
