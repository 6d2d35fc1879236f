"""The words of lines, C, Rust and Python. There is one word for one thing in all four, and this compares them."""

import ast
import re
from pathlib import Path

TOP = Path(__file__).resolve().parents[2]
# Each row has a word, and the names in C, Rust and Python that have it. The first 14 words are those of lines. One call lists one
# phase, so `phases` is a word of lines only.
TABLE = """
cut      | REVROUTE_CUT | Network::cut Edit::Cut | Network.cut
add      | REVROUTE_ADD | Network::add Edit::Add | Network.add
join     | REVROUTE_JOIN | Network::join Edit::Join | Network.join
batch    | revroute_change | Network::batch | Network.batch
dest     | revroute_dest revroute_move_dest | Network::dest Network::move_dest Session::dest | Network.dest Network.move_dest Session.dest
links    | revroute_links | Network::links Session::links | Network.links Session.links
counts   | revroute_counts | Network::counts Session::counts | Network.counts Session.counts
hops     | revroute_hops | Network::hops Session::hops | Network.hops Network.hops_into Session.hops
walk     | revroute_walk revroute_reader_walk | Network::walk Network::try_walk Session::walk Reader::walk | Network.walk Session.walk Reader.walk
ways     | revroute_ways revroute_all_ways revroute_way_reader_ways revroute_node_ways | Network::ways Network::try_ways Network::all_ways Session::ways Session::all_ways WayReader::ways NodeTable::ways | Network.ways Network.all_ways Session.ways Session.all_ways WayReader.ways Node.ways
nearest  | revroute_nearest | Network::nearest Network::try_nearest Session::nearest | Network.nearest Session.nearest
net      | revroute_open | Network::new | Network
pushes   | revroute_pushes | Network::pushes Session::pushes | Network.pushes Session.pushes
phases   | | |
shrink   | revroute_shrink | Network::shrink Session::shrink | Network.shrink Session.shrink
grow     | revroute_grow | Network::grow Session::grow | Network.grow Session.grow
with_ways | revroute_change_with_ways | Network::batch_with_ways | Network.batch_with_ways
change_shrink | revroute_change_shrink | Network::change_shrink | Network.change_shrink
change_grow | revroute_change_grow | Network::change_grow | Network.change_grow
distance | revroute_distance revroute_node_distance | Network::distance Network::try_distance Session::distance Node::distance | Network.distance Session.distance Node.distance
next_hop | revroute_next_hop revroute_reader_next_hop | Network::next_hop Network::try_next_hop Session::next_hop Reader::next_hop Reader::try_next_hop | Network.next_hop Session.next_hop Reader.next_hop
changed  | revroute_changed | Network::changed Session::changed | Network.changed Session.changed
push_order | revroute_push_order | push_order | push_order
report   | revroute_report | Network::report Session::report | Network.report Session.report
size     | revroute_size | Network::size Session::size | Network.size Session.size
reader   | revroute_reader_open | Network::reader Session::reader | Network.reader Session.reader
way_reader | revroute_way_reader_open | Network::way_reader Session::way_reader | Network.way_reader Session.way_reader
way      | revroute_way_reader_way | WayReader::way | WayReader.way
copy     | revroute_reader_copy revroute_way_reader_copy | Network::try_clone Reader::try_clone WayReader::try_clone | Network.copy Reader.copy WayReader.copy
learn    | revroute_reader_learn revroute_way_reader_learn | Reader::learn WayReader::learn | Reader.learn WayReader.learn
answer   | revroute_answer | Session::answer | Session.answer Session.last_answer
take     | revroute_take | Session::take | Session.take
finish   | revroute_finish | Session::finish | Session.finish
close    | revroute_close revroute_reader_close revroute_way_reader_close revroute_node_close | | Network.close Session.close Reader.close WayReader.close Node.close
version  | revroute_version | version | version
cycle    | revroute_closed_walk revroute_closed_walk_of | Refused::ClosedWalk | 
session  | | Session::new | Session
table    | | Node::table | Network.table Node.table
has_link | | | Network.has_link
neighbors | | | Network.neighbors
save     | | | Network.save Session.save
networkx | | | Network.from_networkx Network.to_networkx
node     | revroute_node_open | Node::new | Node
gateway  | revroute_node_open_gateway | Node::gateway | Node.gateway
know     | revroute_node_know | Node::know | Node.know
link_up  | revroute_node_link_up | Node::link_up | Node.link_up
link_down | revroute_node_link_down | Node::link_down | Node.link_down
set_cost | revroute_node_set_cost | Node::set_cost | Node.set_cost
tick     | revroute_node_tick | Node::tick | Node.tick
act      | revroute_node_act | Node::act | Node.act
hear     | revroute_node_hear | Node::hear | Node.hear
written  | revroute_node_written | Node::written | Node.written
say      | revroute_node_say | Node::say | Node.say
news     | revroute_node_has_news | Node::has_news | Node.has_news
height   | revroute_node_height | Node::height | Node.height
gates    | revroute_node_gates | NodeTable::gates | Node.gates
lets_in  | revroute_node_lets_in | Node::lets_in | Node.lets_in
sends_to | revroute_node_sends_to | Node::sends_to | Node.sends_to
"""
# Names that do not have the word of their row.
OF_THEIR_OWN = {"revroute_change", "revroute_open", "Network::new", "Session::new", "Network", "Network::try_clone", "Reader::try_clone"}
OF_THEIR_OWN |= {"WayReader::try_clone"}
OF_THEIR_OWN |= {"revroute_closed_walk", "revroute_closed_walk_of", "Refused::ClosedWalk"}
WORDS_OF_LINES = 14
RUST_TYPES = ("Network", "Session", "Reader", "WayReader", "Node", "NodeTable")
PYTHON_TYPES = ("Network", "Session", "Reader", "WayReader", "Node")


def rows():
    """The word of each row, and its names in C, Rust and Python."""
    for line in TABLE.strip().splitlines():
        word, *cells = line.split("|")
        yield word.strip(), [cell.split() for cell in cells]


def words_of_lines():
    """The first words of the requests that docs/LINES.md lists."""
    return {*re.findall(r'^`\["(\w+)"', (TOP / "docs" / "LINES.md").read_text(), re.M)}


def names_of_c():
    """The calls of the header that are not deprecated, and the kinds of edits."""
    header = (TOP / "embed" / "c" / "revroute.h").read_text()
    kinds = re.search(r"typedef enum revroute_kind \{(.*?)\} revroute_kind;", header, re.S)[1]
    return {*re.findall(r"^\w+ (revroute_\w+[a-z])\(", header, re.M), *re.findall(r"^ *(REVROUTE_\w+) =", kinds, re.M)}


def names_of_rust():
    """The functions and methods of the crate that are not deprecated, the kinds of edits, and the refusal of a cycle."""
    found = set()
    for file in sorted((TOP / "embed" / "rust" / "src").glob("*.rs")):
        text, owner = file.read_text(), ""
        deprecated = re.findall(r"#\[deprecated\([^\]]*\)\]\s+pub fn (\w+)", text)
        for line in text.splitlines():
            if head := re.match(r"(?:impl(?:<[^>]*>)?|pub enum) (\w+)(?:<[^>]*>)? \{", line):
                owner = head[1]
            if (call := re.match(r"    pub (?:const )?fn (\w+)", line)) and owner in RUST_TYPES and call[1] not in deprecated:
                found.add(f"{owner}::{call[1]}")
            if (variant := re.match(r"    (Cut|Add|Join|ClosedWalk)\(", line)) and owner in ("Edit", "Refused"):
                found.add(f"{owner}::{variant[1]}")
    functions = ((TOP / "embed" / "rust" / "src" / f"{name}.rs").read_text() for name in ("lib", "push_order"))
    return found | {it for text in functions for it in re.findall(r"^pub fn (\w+)", text, re.M)}


def classes_of_python():
    """The public classes with calls, and each public method or property that is not deprecated, with its kind."""
    found, classes = {}, {}
    for name in ("network", "session", "reader", "way_reader", "node"):
        tree = ast.parse((TOP / "embed" / "python" / "src" / "revroute" / f"{name}.py").read_text())
        classes |= {it.name: it for it in tree.body if isinstance(it, ast.ClassDef)}
    for owner in (classes[name] for name in PYTHON_TYPES):
        # (a base class is written with the kind of names that it has, as TableReader[Name])
        bases = [classes[it.value.id] for it in owner.bases if isinstance(it, ast.Subscript) and it.value.id in classes]
        for body in (it.body for it in (owner, *bases)):
            for call in (it for it in body if isinstance(it, ast.FunctionDef) and not it.name.startswith("_")):
                if "_deprecate(" not in ast.unparse(call):
                    is_property = any(isinstance(it, ast.Name) and it.id == "property" for it in call.decorator_list)
                    found[owner.name, call.name] = "property" if is_property else "method"
    return found


def names_of_python():
    methods = {f"{owner}.{name}" for owner, name in classes_of_python()}
    texts = ((TOP / "embed" / "python" / "src" / "revroute" / f"{name}.py").read_text() for name in ("session", "tables"))
    functions = {it for text in texts for it in re.findall(r"^def ([a-z]\w*)\(", text, re.M)}
    return methods | {*functions, "Network", "Session", "Node"}


def wrong_words():
    """What is wrong with the words."""
    table = [*rows()]
    if different := words_of_lines() ^ {word for word, _ in table[:WORDS_OF_LINES]}:
        yield f"the words of docs/LINES.md are not the first of the table: {sorted(different)}"
    for at, (language, names) in enumerate((("C", names_of_c()), ("Rust", names_of_rust()), ("Python", names_of_python()))):
        listed = {name for _, cells in table for name in cells[at]}
        for it in sorted(names - listed):
            yield f"{language} has {it}, which is not in the table of checks/embed/vocabulary.py"
        for it in sorted(listed - names):
            yield f"{language} does not have {it}"
    for word, cells in table:
        for it in (name for cell in cells for name in cell if name not in OF_THEIR_OWN and word not in name.lower()):
            yield f"{it} does not have the word {word}"
    kinds = classes_of_python()
    for (owner, name), kind in kinds.items():
        if owner == "Session" and kinds.get(("Network", name), kind) != kind:
            yield f"in Python {name} is a {kind} of Session and not of Network"
