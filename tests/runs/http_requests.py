"""Desks that are served over HTTP: words, ports and files, what is answered, and that it stands afterwards."""
import socket

from runs.checked import Ended, Served, exchange, free_port, reply_text, request_text
from runs.desk_files import CALL, CALLED, OFFICE

MEMBERS = 1000
CALL_IN_2000 = (
    '{"company":"private","kind":"general","given":"2000-01-01","appointed":"2000-01-20T10:00:00",'
    '"record":"2000-01-18T18:00:00","resolutions":[["ordinary","Accounts"]]}'
)


def run(runs):
    """Serves the desk that desk_files has made."""
    wrong_words(runs)
    a_meeting_is_called(runs)
    stopped_by_hand(runs)
    runs.ends(f"serve ./desk --port {free_port()}", 3, error="WriteFault", stdout="/dev/full")
    many_members(runs)


def wrong_words(runs):
    runs.table("""
        # words                                          status  output   error
        serve ./desk --port 0                                 2  -        *
        serve ./desk --port 65536                             2  -        *
        serve ./desk --port -1                                2  -        *
        serve ./desk --port ''                                2  -        *
        serve ./desk --port http                              2  -        *
        serve ./desk --port 4294967376                        2  -        *
        serve ./desk --port 1 --requests 0                    2  -        *
        serve ./desk --port 1 --requests 1000000001           2  -        *
        serve ./desk --port 1 --requests 4294967297           2  -        *
        serve ./desk --port 1 --requests -1                   2  -        *
        serve ./desk --port 1 --requests ''                   2  -        *
        serve ./desk --port 1 --requests many                 2  -        *
        serve ./desk                                          2  -        *
        serve ./desk --port 1 --port 1                        2  -        *
        serve ./missing --port 0 --zone nowhere               2  -        *
        serve ./missing --port 1 --zone nowhere               2  -        zone
        init ./other                                          0  created  -
    """)


def a_meeting_is_called(runs):
    """A key that nobody has, a peer that goes away at once, a meeting that is called, and who it is not for."""
    with Served(runs, "serve ./desk --port PORT --requests 4") as served:
        served.answers("GET /m/S1/mine", "bbbbbbbbbbbbbbbb", "401 Unauthorized", '{"code":1,"refused":"Key"}')
        socket.create_connection(("127.0.0.1", served.port)).close()
        served.answers("POST /m/S1/call", OFFICE, "200 OK", '{"ok":"called"}', CALL)
        # while it runs it holds the file and the port; a missing file is reported before the port
        runs.table(f"""
            keys ./desk ./office.csv                          3  -        Store
            serve ./desk --port {served.port}                 3  -        Store
            serve ./other --port {served.port}                3  -        Socket
            serve ./missing --port {served.port}              3  -        Store
        """)
        served.answers("GET /m/S1/mine", OFFICE, "403 Forbidden", '{"code":7,"refused":"PartyOnly"}')
    runs.ends("results ./desk S1", output=CALLED.format("S1"))


def stopped_by_hand(runs):
    """What was answered stands where it is stopped by hand."""
    with Served(runs, "serve ./desk --port PORT", 143) as served:
        served.answers("POST /m/S2/call", OFFICE, "200 OK", '{"ok":"called"}', CALL)
        served.stop()
    runs.ends("results ./desk S2", output=CALLED.format("S2"))


def many_members(runs):
    """A register as long as one may be: a thousand members ask for their own things, and each gets its own alone."""
    members = range(1, MEMBERS + 1)
    keys = [f"M{n:05},{key_of(n)}\n" for n in members]
    rows = [f"M{n:05},individual,Holder {n},{n},100\n" for n in range(1, 20001)]
    runs.write("many.csv", f"party,key\nOFFICE,{OFFICE}\n" + "".join(keys))
    runs.write("longest.csv", "member,kind,name,shares,paid\n" + "".join(rows))
    runs.table("""
        init ./large                                              0  created  -
        keys ./large ./many.csv                                   0  loaded   -
    """)
    with Served(runs, "serve ./large --port PORT --requests 1") as served:
        served.answers("POST /m/G1/call", OFFICE, "200 OK", '{"ok":"called"}', CALL_IN_2000)
    runs.ends("register ./large G1 2000-01-18T18:00:00 ./longest.csv", output="loaded\n")

    with Served(runs, f"serve ./large --port PORT --requests {MEMBERS}") as served:
        replies = [exchange(served.port, request_text("GET /m/G1/mine", key_of(n))) for n in members]
    wanted = [reply_text("200 OK", own_things(n)).encode() for n in members]
    runs.compare("desk serve ./large, asked by a thousand members", Ended(0, b"\n".join(replies), b""), 0, b"\n".join(wanted))


def key_of(member):
    return f"key-of-a-member-{member:05}"


def own_things(member):
    return (
        '{"authorised":[],"casts":[],"demands":[],"given":[],"meeting":"G1","ok":"mine","persons":[],"present":false,'
        f'"received":[],"row":{{"kind":"individual","name":"Holder {member}","paid":100,"shares":{member}}}}}'
    )
