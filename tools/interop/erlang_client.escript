#!/usr/bin/env escript
%% A client of Erlang's ssh: erlang_client.escript FOLDER PORT FILE. FOLDER has its key and its known_hosts. It sends the file to `cat` and prints whether the same came back, and the
%% exit status; and then what a client without a key that is known is told.
-mode(compile).
-define(WAIT, 60000).

main([Folder, Port, File]) ->
    ok = logger:set_primary_config(level, error),
    {ok, _} = application:ensure_all_started(ssh),
    {ok, Data} = file:read_file(File),
    {ok, Connection} = connected(Port, Folder),
    {ok, Channel} = ssh_connection:session_channel(Connection, ?WAIT),
    success = ssh_connection:exec(Connection, Channel, "cat", ?WAIT),
    spawn_link(fun() ->
        ok = ssh_connection:send(Connection, Channel, Data, infinity),
        ok = ssh_connection:send_eof(Connection, Channel)
    end),
    {Came, Said, Status} = collected(Connection, Channel, [], [], none),
    io:format("~s ~s status ~p~n", [same(Came, Data), string:trim(Said), Status]),
    ssh:close(Connection),
    {error, _} = connected(Port, filename:join(Folder, "other")),
    io:format("denied~n").

connected(Port, Folder) ->
    ssh:connect("127.0.0.1", list_to_integer(Port), [
        {user, "reader"}, {user_dir, Folder}, {auth_methods, "publickey"},
        {user_interaction, false}, {silently_accept_hosts, false}, {save_accepted_host, false}
    ], ?WAIT).

same(Data, Data) -> "same";
same(_, _) -> "other".

collected(Connection, Channel, Came, Said, Status) ->
    receive
        {ssh_cm, Connection, {data, Channel, 0, Bytes}} ->
            ssh_connection:adjust_window(Connection, Channel, byte_size(Bytes)),
            collected(Connection, Channel, [Bytes | Came], Said, Status);
        {ssh_cm, Connection, {data, Channel, 1, Bytes}} ->
            ssh_connection:adjust_window(Connection, Channel, byte_size(Bytes)),
            collected(Connection, Channel, Came, [Bytes | Said], Status);
        {ssh_cm, Connection, {exit_status, Channel, Number}} ->
            collected(Connection, Channel, Came, Said, Number);
        {ssh_cm, Connection, {closed, Channel}} ->
            {iolist_to_binary(lists:reverse(Came)), iolist_to_binary(lists:reverse(Said)), Status};
        {ssh_cm, Connection, _} ->
            collected(Connection, Channel, Came, Said, Status)
    after ?WAIT -> {<<>>, <<>>, timeout}
    end.
