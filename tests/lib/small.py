"""Small trees that several scripts build, some with their reports, which are given without the new book."""

# One file.
HELLO = {"hello.do": "echo hi\n"}
HELLO_REPORT = "built 3 hello\ndep change hello.do\nbegun hello\nfile 3 hello\nhi\n\nend\n"
# Its digest, and that of its script.
HI = "98ea6e4f216f2fb4b69fff9b3a44842c38686ca685f3f55dc48c5d3fb1107be4"
ECHO_HI = "ab08508fdf5ca4da5c4995987bc41c56c048aaa5eeb046417ae4049b7d40286e"

# Two targets that ask for one, and one that asks for both.
DIAMOND = {
    "base.do": "echo b\n",
    "left.do": "redo-ifchange base\ncat base\n",
    "right.do": "redo-ifchange base\ncat base\n",
    "top.do": "redo-ifchange left right\ncat left right\n",
}

# Two targets that ask for each other, one that asks for the first, and one that asks for none.
RING = {
    "a.do": "redo-ifchange b\n",
    "b.do": "redo-ifchange a\n",
    "t.do": "redo-ifchange a\n",
    "u.do": "echo u\n",
}

# A source, and two targets in a row. The first one's content doesn't depend on that of the source.
ROW = {
    "src": "1\n",
    "mid.do": "redo-ifchange src\necho m\n",
    "top.do": "redo-ifchange mid\ncat mid\n",
}

# A loop that asks for each of its words.
LOOP = {
    "p.do": "echo p\n",
    "q.do": "echo q\n",
    "t.do": "for x in p q; do redo-ifchange $x; cat $x; done\n",
}

# Two directories with a rule each, and twenty targets in each.
BATCH = {"a": None, "a/default.do": "echo $1\n", "b": None, "b/default.do": "echo $1\n"}
IN_BATCH = [f"{above}/{number}" for above in "ab" for number in range(10, 30)]

# Records with each kind of entry: the report of the targets `d/a.x`, `d/b` and `src`.
ENTRIES = {"d": None, "default.x.do": "redo-always\nredo-ifchange src\necho a\n", "src": ""}
ENTRIES_REPORT = """\
built 2 d/a.x
dep create d/a.x.do
dep create d/default.x.do
dep create d/default.do
dep change default.x.do
dep always
dep change src
failed norule d/b
dep create d/b.do
dep create d/default.do
dep create default.do
source src
begun d/a.x
file 2 d/a.x
a

end
"""


# A book of which targets are out of date in each way, some with names that markup or UTF-8 might stumble over; and what
# `--ood` lists by it: paths, states and reasons.
OUT_OF_DATE = {
    ".redo-book": b'target none a<&"b\nalways\n'
                  b"target none gone\n"
                  b'target none m\nchange none a<&"b\n'
                  b"target none n\xff\nchange none m\n"
                  b"target none o\nchange none n\xff\n"
                  b"target none p\ncreate gone\nalways\n"
                  b"target none q\nchange none q\n"
                  b"target none r\n"
                  b"end\n",
    **{path + b".do": "" for path in (b'a<&"b', b"m", b"n\xff", b"o", b"p", b"q", b"r")},
}
OUT_OF_DATE_LIST = [
    (b'a<&"b', b"stale", b"it is made in each run"),
    (b"gone", b"lost", b"no rule makes it any more"),
    (b"m", b"maybe", b'a<&"b may come out otherwise'),
    (b"n\xff", b"maybe", b"m may come out otherwise"),
    (b"o", b"maybe", b"n\xff may come out otherwise"),
    (b"p", b"stale", b"it is made in each run"),
    (b"q", b"ring", b"it waits for q, which waits for itself or a ring"),
]


def chain(names, last, reads=False):
    """A chain of targets, each of which asks for the next one, or reads it as well. The last one has a script of its
    own."""
    more = "cat {}\n" if reads else ""
    tree = {f"{this}.do": f"redo-ifchange {next}\n" + more.format(next) for this, next in zip(names, names[1:])}
    return {**tree, f"{names[-1]}.do": last}
