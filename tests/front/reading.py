"""What can be read and what can't: usage, texts, bytes, several files, names."""
import os, random, re, resource
from .common import (
    BARE, BARE_PROPOSAL, BARE_SHOWN, BARE_TEXT, CHECKER, COMMAND, DISTURBED_TEXT, MAX, MIN, NAMED, SOUND, SOUND_PROPOSAL, SOUND_TEXT, as_bytes, contents,
    expect, folder_of, json_of, lines, packed, printed, put, started, text_of, tower, tried,
)


# ---- usage
COMMANDS = ("check", "propose", "show", "run", "picture", "encode", "decode", "build", "prove")
WRONG_USAGE = [
    (), ("frob",), ("--frob",), ("-q",), ("",), ("Check",), ("check", "--frob"), ("check", "-o"), ("check", "--task", "0"), ("check", "--run"), ("show", "-q"), ("show", "--run"),
    ("run", "--runner", "x"), ("run", "--all"), ("picture", "--task"), ("picture", "--json"), ("encode", "--json"), ("decode", "--json"), ("decode", "--run"), ("build", "x"),
    ("build", "-o", "x"), ("check", "--thresholds", "1"), ("propose", "--thresholds"), ("propose", "--threshold=s", "-q"), ("propose", "--run"), ("prove", "x"), ("prove", "--json"), ("check", "--json=yes"), ("--version=2",), ("\udcff",), ("check", "--\udcff"),
]


def usage():
    for command in [()] + [(command,) for command in COMMANDS]:
        for option in ("--help", "-h"):
            out, error, status = tower(*command, option)
            expect("%s %s" % (command, option), (out.startswith(b"usage: %s " % " ".join(("tower", *command)).encode()), error, status), (True, "", 0))
            tried("uses")
    help_of_all = tower("--help")[0].decode()
    expect("every subcommand is told", [command for command in COMMANDS if not re.search(r"(?m)^    %s +\w" % command, help_of_all)], [])
    expect("the exit status is told", "exit status: 0 accepted" in help_of_all, True)
    for options in WRONG_USAGE:
        out, error, status = tower(*options)
        said = error.splitlines()
        expect("usage %s" % (options,), (out, status, said[0][:13], said[-1][:5], error.endswith("\n")), (b"", 2, "usage: tower ", "tower", True))
        tried("uses")


# ---- texts that can't be read
NO_NUMBER = "%s is no decimal number and no mark"
LONG = "x" * 5000
ERRORS = [
    # no number, in each place of a line, after comments, and in characters rather than bytes
    ("table x proposal", "1:7: 'x' is no decimal number and no mark"),
    ("table\n4 8 2 25 3I  # sizes\n", "2:10: '3I' is no decimal number and no mark"),
    ("table 1 2\n\t3 4x\nproposal y", "2:4: '4x' is no decimal number and no mark"),
    ("# table 5 z\ntable 1 # x y\n  1.5", "3:3: '1.5' is no decimal number and no mark"),
    ("table 1\r\n2 0x10\r\n", "2:3: '0x10' is no decimal number and no mark"),
    ("table +5", "1:7: '+5' is no decimal number and no mark"),
    ("table - 5", "1:7: '-' is no decimal number and no mark"),
    ("table --5", "1:7: '--5' is no decimal number and no mark"),
    ("table 1_000", "1:7: '1_000' is no decimal number and no mark"),
    ("table 1,2", "1:7: '1,2' is no decimal number and no mark"),
    ("Table 1", "1:1: 'Table' is no decimal number and no mark"),
    ("table: 1", "1:1: 'table:' is no decimal number and no mark"),
    ("# é\ntable é x", "2:7: '\\xe9' is no decimal number and no mark"),
    ("table \uff11", "1:7: '\\uff11' is no decimal number and no mark"),
    ("table\u00a01", "1:1: 'table\\xa01' is no decimal number and no mark"),
    ("table 1\u20282", "1:7: '1\\u20282' is no decimal number and no mark"),
    # a token is quoted up to 40 characters
    ("table " + LONG, "1:7: '%s' .. is no decimal number and no mark" % LONG[:40]),
    ("table " + LONG[:41], "1:7: '%s' .. is no decimal number and no mark" % LONG[:40]),
    ("table " + LONG[:40], "1:7: '%s' is no decimal number and no mark" % LONG[:40]),
    ("table " + "é" * 41, "1:7: '%s' .. is no decimal number and no mark" % ("\\xe9" * 40)),
    ("table 1" + "0" * 5000, "1:7: 1%s .. doesn't fit in 32 bits" % ("0" * 39)),
    ("table 1" + "0" * 39, "1:7: 1%s doesn't fit in 32 bits" % ("0" * 39)),
    ("table -" + "9" * 5000, "1:7: -%s .. doesn't fit in 32 bits" % ("9" * 39)),
    ("table " + "0" * 5000 + "x", "1:7: '%s' .. is no decimal number and no mark" % ("0" * 40)),
    ("0" * 5000 + "7", "1:1: the number %s .. stands before the first mark" % ("0" * 40)),
    # 32 bits
    ("table 2147483647 2147483648", "1:18: 2147483648 doesn't fit in 32 bits"),
    ("table -2147483648\n-2147483649", "2:1: -2147483649 doesn't fit in 32 bits"),
    # a number before the first mark
    ("# none yet\n 7 table", "2:2: the number 7 stands before the first mark"),
    # a mark twice
    ("table 1 table 2 proposal 3", "1:9: the mark 'table' stands here for the second time"),
    ("table\nproposal\nproposal", "3:1: the mark 'proposal' stands here for the second time"),
    ("table proposal schedule 1\nschedule", "2:1: the mark 'schedule' stands here for the second time"),
    # a section that isn't there is missed at the end
    ("", "1:1: the text ends and has no section 'table'"),
    ("# table\n", "2:1: the text ends and has no section 'table'"),
    ("table 1 2", "1:10: the text ends and has no section 'proposal'"),
    ("proposal 1 2\n", "2:1: the text ends and has no section 'table'"),
    ("table schedule 1", "1:17: the text ends and has no section 'proposal'"),
    # the first of two
    ("table 1 a\n2147483648 table", "1:9: 'a' is no decimal number and no mark"),
    # a schedule is read, though not used
    ("table 1 proposal 2 schedule x", "1:29: 'x' is no decimal number and no mark"),
    # ends of lines, zeros
    ("table 1\r2 proposal", "1:8: a carriage return within a line; end lines by a line feed, or by both"),
    ("table\r1 2\rproposal\r", "1:6: a carriage return within a line; end lines by a line feed, or by both"),
    ("table 1\r\n2 # so\rproposal\n", "2:7: a carriage return within a line; end lines by a line feed, or by both"),
    ("table 1 \0 2 proposal", "1:9: '\\x00' is no decimal number and no mark"),
    ("table 1 \x1b[31m proposal", "1:9: '\\x1b[31m' is no decimal number and no mark"),
]
RUN_ERRORS = [
    ("table 1 proposal 2", "1:19: the text ends and has no section 'schedule'"),
    ("schedule 0", "1:11: the text ends and has no section 'table'"),
    ("table 1 proposal p schedule 2", "1:18: 'p' is no decimal number and no mark"),
]
UTF16 = "1:1: this text is in UTF-16; save it as UTF-8"


def reading():
    for text, message in ERRORS:
        others = () if "no section" in message else (("decode",), ("run",))
        if "no section 'proposal'" not in message:  # which these make if there is none
            others += (("check",), ("check", "--json"), ("propose",), ("propose", "--json"))
        for command in (("encode",), ("show",), ("picture",), ("show", "--json"), *others):
            expect("%s on %r" % (command, text[:60]), tower(*command, given=text.encode()), (b"", "<stdin>:%s\n" % message, 2))
        tried("errors of texts")
    for text, message in RUN_ERRORS:
        for command in (("encode", "--run"), ("run",), ("run", "--json")):
            expect("%s on %r" % (command, text), tower(*command, given=text.encode()), (b"", "<stdin>:%s\n" % message, 2))
        tried("errors of texts")
    bad = b"# \xff is fine here\ntable 1 \xff"
    expect("a byte that is no UTF-8", tower("encode", given=bad), (b"", "<stdin>:2:9: '\\udcff' is no decimal number and no mark\n", 2))
    # what is written of a text, however it is laid out
    rng = random.Random(20261118)
    for _ in range(20):
        t, w, s = [[rng.choice((MIN, MAX, 0, -1, rng.randrange(MIN, MAX + 1), rng.randrange(-9, 10))) for _ in range(rng.randrange(9))] for _ in range(3)]
        parts = [("table", t), ("proposal", w), ("schedule", s)]
        rng.shuffle(parts)
        text = text_of(rng, parts)
        expect("encode on %r" % text, tower("encode", given=text.encode()), (as_bytes(t, w), "", 0))
        expect("encode --run on %r" % text, tower("encode", "--run", given=text.encode()), (as_bytes(t, s), "", 0))
        tried("texts encoded")
    # ends of lines and byte order marks that are read over, and what isn't
    plain = SOUND_TEXT.replace(" ", "\n") + "\n# é\n"
    want = [tower(command, "--json", given=plain.encode()) for command in ("check", "show")]
    expect("a text on its own", [got[2] for got in want], [0, 0])
    dos = plain.replace("\n", "\r\n")
    for data in (dos.encode(), plain.encode("utf-8-sig"), dos.encode("utf-8-sig"), dos.replace("\r", "\r\r").encode(), plain[:-1].encode()):
        expect("a text as %r .." % data[:20], [tower(command, "--json", given=data) for command in ("check", "show")], want)
        expect("encode of a text as %r .." % data[:20], tower("encode", given=data), (as_bytes(SOUND, SOUND_PROPOSAL), "", 0))
    expect("a column after a byte order mark", tower("check", given="tabel 1".encode("utf-8-sig")), (b"", "<stdin>:1:1: 'tabel' is no decimal number and no mark\n", 2))
    expect("a byte order mark later", tower("check", given="table 1\n\ufeffproposal".encode()), (b"", "<stdin>:2:1: '\\ufeffproposal' is no decimal number and no mark\n", 2))
    for text in (plain, "table 1", "# größer\r\ntable 1", "1 2"):
        for code in ("utf-16", "utf-16-le", "utf-16-be"):
            for command in ("check", "propose", "show", "run", "picture", "encode", "decode"):
                expect("%s on %r in %s" % (command, text[:9], code), tower(command, given=text.encode(code)), (b"", "<stdin>:%s\n" % UTF16, 2))
    expect("a zero in a comment", tower("check", given=b"# a zero: \0\n" + BARE_TEXT.encode()), (b"accepted 0\n", "", 0))
    for command in ("check", "propose", "show", "run", "picture", "encode", "decode"):
        for data in (b"", b"\n", b"\r\n", b"# nothing", b"\xef\xbb\xbf"):
            _, error, status = tower(command, given=data)
            expect("%s on %r" % (command, data), (re.sub(r"^<stdin>:\d:\d+: ", "", error), status), ("the text ends and has no section 'table'\n", 2))


# ---- bytes
NO_PARTS = "these bytes are no table and proposal: the lengths are outside 0..5149 and 0..11268, or bytes are missing"


def bytes_read():
    whole = as_bytes(BARE, BARE_PROPOSAL)
    expect("bytes that aren't cut", tower("check", given=whole), (b"accepted 0\n", "", 0))
    expect("later bytes are ignored", tower("check", given=whole + b"\1\2\3more"), (b"accepted 0\n", "", 0))
    for size in range(1, len(whole)):
        want = "<stdin>:1:1: '\\x18' is no decimal number and no mark\n" if size == 1 else "<stdin>: %s\n" % NO_PARTS
        for command in ("check", "decode"):
            expect("%s on %d of %d bytes" % (command, size, len(whole)), tower(command, given=whole[:size]), (b"", want, 2))
        tried("damaged bytes")
    for lengths, more in (
        ((-1, 0), 99), ((0, -1), 99), ((5150, 0), 50000), ((0, 11269), 50000), ((MAX, MAX), 99), ((MIN, MIN), 99), ((24, MAX), 99), ((5149, 11268), 4 * 16417 - 1),
        ((5149, 11268), 4 * 16417), ((0, 11268), 50000), ((5149, 0), 50000), ((0, 0), 0), ((1, 0), 4),
    ):
        data = packed(lengths) + b"\0" * more
        asked = printed(CHECKER, given=data)
        want = (b"", "<stdin>: %s\n" % NO_PARTS, 2) if asked == "unread\n" else (asked.encode(), "", 1)
        expect("bytes of the lengths %s" % (lengths,), tower("check", "-q", given=data), want)
        tried("damaged bytes")
    for command in (("run",), ("run", "--json"), ("encode", "--run")):
        expect("%s on bytes" % (command,), tower(*command, given=whole), (b"", "<stdin>: bytes have no schedule\n", 2))
    # a text may be longer than what fits into bytes
    long = "table" + " 1" * 5150 + " proposal" + " 1" * 11269
    expect("too long a table", tower("check", "-q", given=long.encode()), (b"refused 1 length at 5150\n", "", 1))
    for text, options, want in (
        (long, (), "1:10305: the table has 5150 words, and the program reads at most 5149"), ("table proposal" + " 1" * 11269, (), "1:22552: the proposal has 11269 words, and the program reads at most 11268"),
        ("table schedule" + " 1" * 6001, ("--run",), "1:12016: the schedule has 6001 words, and the program reads at most 6000"),
    ):
        expect("encode on %s" % text[:20], tower("encode", *options, given=text.encode()), (b"", "<stdin>:%s\n" % want, 2))
    expect("encode on as many words as are read", len(tower("encode", given=("table" + " 1" * 5149 + " proposal" + " 1" * 11268).encode())[0]), 4 * (2 + 5149 + 11268))


# ---- several files
def several():
    [table, proposal] = BARE_TEXT.split("\n")
    data = as_bytes(BARE, BARE_PROPOSAL)
    with folder_of({
        "table.txt": table, "proposal.txt": "\n" + proposal, "both.txt": BARE_TEXT, "-o.txt": BARE_TEXT, "case.bin": data, "schedule.txt": "schedule 0", "names.txt": "# name v0 way",
        "again.txt": "# so\n  table 1", "far.txt": "# name v9 way", "words.txt": "1 2", "empty.txt": "", "short.bin": data[:40], "bad.txt": "# é\ntable é", "\udcff.txt": DISTURBED_TEXT,
    }) as folder:
        path = lambda name: os.path.join(folder, name)
        under = lambda *options, **more: tower(*[path(option[1:]) if option.startswith("/") else option for option in options], **more)
        want = tower("show", given=BARE_TEXT.encode())
        for files in (
            ("/table.txt", "/proposal.txt"), ("/proposal.txt", "/table.txt"), ("/both.txt",), ("/case.bin",), ("/case.bin", "/empty.txt"), ("/empty.txt", "/case.bin"), ("--", "/-o.txt"),
        ):
            expect("show %s" % (files,), under("show", *files), want)
        expect("a part from standard input", under("show", "-", "/proposal.txt", given=table.encode()), want)
        expect("both parts from standard input", under("show", "-", given=BARE_TEXT.encode()), want)
        expect("standard input twice", under("show", "-", "-", given=BARE_TEXT.encode()), want)
        for files in (("/names.txt", "/case.bin"), ("/case.bin", "/names.txt"), ("/table.txt", "/names.txt", "/proposal.txt")):
            expect("names in a file of their own %s" % (files,), b"\nat the start: way 0\n" in under("show", *files)[0], True)
        expect("a schedule for bytes", under("run", "/case.bin", "/schedule.txt")[0].splitlines()[0], b"after the schedule's 1 words")
        mark = "the mark '%s' stands here for the second time"
        for files, message in (
            (("/table.txt", "/again.txt"), "%s:2:3: %s; the first is at %s:1:1" % (path("again.txt"), mark % "table", path("table.txt"))),
            (("/proposal.txt", "/both.txt"), "%s:2:1: %s; the first is at %s:2:1" % (path("both.txt"), mark % "proposal", path("proposal.txt"))),
            (("/table.txt", "/table.txt"), "%s:1:1: %s" % (path("table.txt"), mark % "table")),
            (("/case.bin", "/table.txt"), "%s:1:1: %s" % (path("table.txt"), mark % "table")),
            (("/table.txt", "/case.bin"), "%s: the bytes have a table, and so has what was read before" % path("case.bin")),
            (("/proposal.txt", "/case.bin"), "%s: the bytes have a proposal, and so has what was read before" % path("case.bin")),
            (("/case.bin", "/case.bin"), "%s: the bytes have a table, and so has what was read before" % path("case.bin")),
            (("/table.txt", "/words.txt"), "%s:1:1: the number 1 stands before the first mark" % path("words.txt")),
            (("/table.txt", "/short.bin"), "%s: %s" % (path("short.bin"), NO_PARTS)),
            (("/bad.txt", "/both.txt"), "%s:2:7: '\\xe9' is no decimal number and no mark" % path("bad.txt")),
            (("/both.txt", "/far.txt"), "%s:1:8: there is no v9: the table has 1 variable" % path("far.txt")),
            (("/case.bin", "/far.txt"), "%s:1:8: there is no v9: the table has 1 variable" % path("far.txt")),
            (("/table.txt", "/empty.txt"), "%s:1:1: the text ends and has no section 'proposal'" % path("empty.txt")),
            (("/table.txt",), "%s:1:%d: the text ends and has no section 'proposal'" % (path("table.txt"), len(table) + 1)),
            (("/none.txt",), "%s: No such file or directory" % path("none.txt")), (("/table.txt", "/none.txt"), "%s: No such file or directory" % path("none.txt")),
            (("/",), "%s: Is a directory" % path("")), (("/table.txt/x",), "%s: Not a directory" % path("table.txt/x")), (("",), ": No such file or directory"),
            (("/" + "x" * 300,), "%s: File name too long" % path("x" * 300)),
        ):
            for command in ("encode", "show", "picture") + (() if "no section 'proposal'" in message else ("check", "propose")):
                expect("%s %s" % (command, files), under(command, *files), (b"", message + "\n", 2))
            tried("errors of files")
        out, error, status = under("check", "/\udcff.txt")
        expect("a file's name that is no UTF-8", (error.splitlines()[0], status), (os.path.join(folder, "\\udcff.txt:1:39: refused 15 disturb at 2"), 1))
        at = json_of("check", path("\udcff.txt"), status=1)["at"]
        expect("the same in JSON", at, {"file": path("\udcff.txt"), "line": 1, "column": 39})
        # places name the file that they are in
        put(path("proposal.txt"), "\n\n" + DISTURBED_TEXT.split("\n")[1])
        got = under("check", "/proposal.txt", "/table.txt")[1].splitlines()[0]
        expect("a place in the table's file", got, path("table.txt") + ":1:39: refused 15 disturb at 2")
        put(path("proposal.txt"), "\n\n" + proposal.replace(" 5 5 5", " 5 5 4"))
        expect("a place in the proposal's file", under("check", "/table.txt", "/proposal.txt")[1].splitlines()[0], path("proposal.txt") + ":3:36: refused 9 range at 13")
        put(path("proposal.txt"), proposal)
        expect("a pipe by its name", printed("bash", "-c", '"$0" check <(cat "$1") <(cat "$2")', COMMAND, path("table.txt"), path("proposal.txt")), "accepted 0\n")
        expect("a file that can't be read to its end", tower("encode", "/proc/self/mem"), (b"", "/proc/self/mem: Input/output error\n", 2))
        little = lambda: resource.setrlimit(resource.RLIMIT_AS, (2 ** 30, 2 ** 30))
        for command in ("check", "decode"):
            out, error, status = started(command, "/dev/zero", first=little)
            expect("%s without an end" % command, (out, error.startswith("/dev/zero: "), error.count("\n"), status), (b"", True, 1, 2))
        if os.getuid() == 0:  # as somebody else, who may not read a file or write to a folder
            os.chmod(folder, 0o755)
            os.chmod(path("both.txt"), 0)
            other = dict(user=65534, group=65534, extra_groups=[], cwd="/")
            if started("encode", path("case.bin"), **other)[2] == 0:
                expect("a file that may not be read", started("encode", path("both.txt"), **other), (b"", "%s: Permission denied\n" % path("both.txt"), 2))
                for name in ("case.bin", "new.bin"):
                    got = started("encode", "-o", path(name), path("case.bin"), **other)
                    expect("a folder that may not be written to", got, (b"", "%s: Permission denied\n" % path(name), 2))
                expect("what is there then", (contents(path("case.bin")), os.path.exists(path("new.bin"))), (data, False))
                tried("errors of files", 3)


# ---- names
NO_NAME = "%s can't be a name: it is made of letters, digits and _, with no digit first"
NO_THING = "%s is no variable (v0 ..), mutex (m0 ..) or task (t0 ..)"
AFTER = "after a name comes ':' or the end of the line"
NAMES = [  # comments before a table with 3 tasks, 2 variables and 2 mutexes, and the names that they give or the error
    *(("# name v0 " + name, {"v0": name}) for name in (
        "way", "Way", "WAY", "w", "way_2", "_", "_1", "x2y", "größe", "été", "e\u0301te\u0301", "高さ", "путь", "नाम", "x\u0663", "vv", "v", "v1_", "V1", "node", "name", "table", "if_",
        "Min", "w" * 300,
    )),
    *((comment, {"v0": "way"}) for comment in (
        "# name v0 way: how far", "# name v0 way : how far", "# name v0 way:", "# name v0 way:far", "#name v0 way", "  #   name\tv0   way  ", "# name v0 way\r",
    )),
    ("# name v1 a\n# name m1 b\n# name t2 c\n# name t0 d", {"v1": "a", "m1": "b", "t2": "c", "t0": "d"}),
    ("# name tags are fine", {}), ("# names v0 way", {}), ("# name", {}), ("# name v", {}), ("# nam v0 way", {}), ("# a name v0 way", {}), ("# name of v0: way", {}),
    *(("# name v0 " + name, "1:11: " + NO_NAME % ascii(name)) for name in ("2x", "2", "a-b", "a.b", "-", "a,", "(a)", "\u0663x", "½x", "\u0301x", "a\u200bb", "a'b", "ü!")),
    ("# name v0", "1:10: " + NO_NAME % "''"), ("# name v0 : way", "1:11: " + NO_NAME % "''"), ("# name v0 " + "-" * 5000, "1:11: " + NO_NAME % ("'%s' .." % ("-" * 40))),
    *(("# name v0 " + name, "1:11: '%s' can't be a name: formulas and held sets are written with it" % name) for name in "input if then else and or not none never MIN MAX".split()),
    *(("# name v0 " + name, "1:11: '%s' can't be a name: it is what stands for something without one" % name) for name in ("v1", "v0", "m0", "t2", "v99", "t1024")),
    ("# name v0 way here", "1:15: " + AFTER), ("# name v0 way  # here", "1:16: " + AFTER), ("# name v0 way; here", "1:11: " + NO_NAME % "'way;'"),
    ("# name v0 way\n# name v0 path", "2:11: v0 has the name 'way' already"), ("# name v0 way\n# name v0 way", "2:11: v0 has the name 'way' already"),
    ("# name v0 way\n# name m0 way", "2:11: 'way' is a name already, of v0"),
    ("# name m1 %s\n# name t0 %s" % ("w" * 300, "w" * 300), "2:11: '%s' .. is a name already, of m1" % ("w" * 40)),
    *(("# name %s way" % what, "1:8: " + NO_THING % ascii(what)) for what in ("V0", "p0", "v00", "v01", "v0way", "m1-")),
    ("# name v0: way", "1:10: " + NO_NAME % "''"),
    *(("# name v%d way" % v, "1:8: there is no v%d: the table has 2 variables" % v) for v in (2, 9, 16, 1023)),
    ("# name m2 way", "1:8: there is no m2: the table has 2 mutexes"), ("\n  # name t3 way", "2:10: there is no t3: the table has 3 tasks"),
    ("# name v0 2\n# name v9 x", "1:11: " + NO_NAME % "'2'"),
]


def names():
    for comments, want in NAMES:
        given = (comments + "\n" + SOUND_TEXT).encode()
        if isinstance(want, str):
            for command in ("check", "propose", "show", "picture", "encode", "decode"):
                expect("%s with %r" % (command, comments[:60]), tower(command, given=given), (b"", "<stdin>:%s\n" % want, 2))
        else:
            out = tower("decode", given=given)[0].decode()
            expect("decode with %r" % comments[:60], dict(re.findall(r"(?m)^# name (\w+) (.*)$", out)), want)
            whole = json_of("show", given=given)
            got = [task["name"] for task in whole["tasks"]], [rest["name"] for rest in whole["rests"]], list(whole["points"][0]["row"])
            plain = [["%s%d" % (sort, k) for k in range(count)] for sort, count in (("t", 3), ("m", 2), ("v", 2))]
            expect("show with %r" % comments[:60], got, tuple([want.get(what, what) for what in sort] for sort in plain))
        tried("names")
    # a place with more digits than a number needs
    for digits in (30, 200, 4000, 5000, 20000):
        for more in ("", "\n# name v%s y" % ("1" * digits), "\n# name v0 x"):
            out, error, status = tower("decode", given=("# name v%s x%s\n%s" % ("1" * digits, more, SOUND_TEXT)).encode())
            fine = re.match(r"<stdin>:[12]:\d+: .*\n$", error) is not None and len(error) < 200
            expect("a name of something with %d digits%s" % (digits, more[:9]), (out, fine, status), (b"", True, 2))
            tried("names")
    # where the sizes are wrong, what there is can't be known
    expect("names of a table without sizes", tower("check", "-q", given=b"# name v99 way\ntable 9 1 0 1 0 proposal"), (b"refused 2 size at 0\n", "", 1))
    # names as they are printed
    named = lines("show", given=("# name v0 way: how far\n#name t1 walker \n" + BARE_TEXT).encode())
    expect("show with names", [line for line in named if line not in BARE_SHOWN], NAMED)
    wide = lines("show", given=("# name v0 高さ\n" + BARE_TEXT).encode())
    expect("show with a wide name", wide[6:8], ["  point  holds  高さ  instruction", "  0      none   0     高さ := 5, on to 1"])
    alarmed = json_of("check", given=("# name t1 Größe\n# name v0 e\u0301\n" + SOUND_TEXT).encode())["alarms"][0]
    expect("names in JSON", (alarmed["name"], alarmed["formula"]), ("Größe", "3 / e\u0301"))
