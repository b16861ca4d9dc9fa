#!/usr/bin/env python3
"""Scripts and the first fault of each, worked out by hand from docs/FORMATS.md, and a check that the definitions of script_types
say the same. Outside the gate.

    python3 bench/check_rows.py [WORD]      all rows, or those that have WORD
    python3 bench/check_rows.py --documents the deployments, one a line, as they stand at the end of crates/golden_deployments/stdin
    python3 bench/check_rows.py --answers   their answers by hand, as they stand at the end of crates/golden_deployments/stdout

A row is a script in one of the roles below, in which @KIND stands right before the place of its first fault, with a blank behind
it that isn't part of the script; without that mark the script has no fault. Behind them stand whole deployments with their answers.
Without the tool that evaluates definitions (deployments.py says where it is looked for) nothing is run, and it says so.
"""
import copy
import json
import re
import sys

import deployments

MARK = re.compile(r"@(name|mismatch|count|place) ")
WORDS = re.compile(r"[a-z_][a-z0-9_]*")


def item(key, **members):
    return {"key": key, "name": key, "vendor": "t", "version": "1", **members}


def parameters(**types):
    return [{"name": name, "type": kind} for name, kind in types.items()]


WORLD = {
    "events": [
        item("go", fields={"dest": "text", "n": "int"}),
        item("mix", fields={"a": "activity", "f": "bool", "n": "int", "t": "text", "w": "timer"}),
        item("bare"),
        item("ping", fields={"s": "text", "x": "int"}),
    ],
    "profiles": [item("account", attributes={"name": "text", "seconds": "int", "vip": "bool"})],
    "tables": {"accounts": "account", "banned": "account"},
    "blocks": [
        item("b", fields={"n": "int", "t": "text", "f": "bool", "a": "activity", "m": "timer"},
             attributes={"hits": "int", "tag": "text", "owner": "activity"}, aliases={"tag": "tag"},
             relations={"leg": {"block": "c", "priority": 3}, "own": {"block": "b"}},
             methods={"run": {"params": parameters(x="int", w="text"), "do": ""}}),
        item("c", fields={"k": "int"}, relations={"sub": {"block": "c"}}, methods={
            "twice": {"params": parameters(x="int"), "returns": "int", "do": "return x * 2;"},
            "speak": {"do": "emit text(self.k);"},
            "join": {"params": parameters(one="text", other="int"), "returns": "text", "do": "return one ++ text(other);"},
            "wait": {"params": parameters(m="timer", a="activity"), "returns": "bool", "do": "return has_timer(m) and active(a);"},
        }),
    ],
    "services": [item("s", root="b", active=True), item("u", root="c")],
}

EVENTS = {"handler": "ping", "timer": "timer", "end": "activity-end", "row": "profile-added", "started": "service-started"}
METHODS = {
    "int": {"returns": "int"}, "text": {"returns": "text"}, "bool": {"returns": "bool"}, "activity": {"returns": "activity"},
    "a_timer": {"returns": "timer"}, "run": {"params": parameters(x="int", w="text")},
}
# Where each role's script stands.
PATHS = {
    **{role: "/blocks/0/events/0/on" for role in EVENTS}, **{role: f"/blocks/0/methods/{role}/do" for role in METHODS},
    **{role: f"/blocks/0/{role}" for role in ("exception", "rolled_back", "remove")},
}


def named(members, words):
    """The members of an object whose names are among the words."""
    return {name: member for name, member in members.items() if name in words}


def block_for(block, words):
    """The block with what these words may name. What is left out is no word of the script, so it can't be what a name stands for."""
    kinds = ("fields", "attributes", "aliases", "relations", "methods")
    return {**block, **{kind: named(block[kind], words) for kind in kinds if kind in block}}


def world_for(script):
    """The deployment above, as far as the words of the script may name it."""
    words = set(WORDS.findall(script))
    for block in WORLD["blocks"]:
        words.update(*(WORDS.findall(method["do"]) for method in named(block["methods"], words).values()))
    blocks = [block_for(block, words) for block in WORLD["blocks"]]
    tables = named(WORLD["tables"], words)
    return copy.deepcopy({
        "events": [event for event in WORLD["events"] if event["key"] in words or event["key"] == "ping"],
        "profiles": WORLD["profiles"] if tables else [],
        "tables": tables,
        "blocks": blocks,
        "services": [service for service in WORLD["services"] if service["key"] in words],
    })


def placed(role, script):
    """The deployment above with this script of block b."""
    whole = world_for(script)
    block = whole["blocks"][0]
    if role in EVENTS:
        block["events"] = [{"event": EVENTS[role], "on": script}]
    elif role in METHODS:
        block["methods"][role] = {**METHODS[role], "do": script}
    else:
        block[role] = script
    return whole


ROWS = {
    "handler": [
        # variables
        '', 'let x = 1; emit text(x);', 'let x = 1; let @name x = 2;', 'let x = @name x;', 'emit @name x;', 'emit (@name x1);', '@name x = 1;',
        '@name x = y;', 'let x = 1; x = 2;', 'let x = 1; x = @mismatch "t";', 'let x = 1; x = @mismatch (("t"));', 'let x = none; x = activity;',
        'let x = none; x = @mismatch self.m;', 'let x = self.m; x = none;', 'create leg as c; @place c = 1;', 'create leg as c; @place c = y;',
        'create leg as c; let x = @place c;', 'create leg as c; emit @place c;', 'create leg as c; let x = 1 + @place c;',
        # blocks and what is visible behind them
        'if true { let x = 1; } emit text(@name x);', 'if true { let x = 1; } let x = 2;', 'if true { let x = 1; } else { let x = "t"; emit x; }',
        'if true { let x = 1; emit text(x); } else { emit text(@name x); }', 'let x = 1; if true { let @name x = 2; }',
        'let x = 1; if true { x = 2; } else { x = @mismatch true; }', 'while false { let x = 1; } let x = 2;',
        'while false { let x = 1; let @name x = 2; }', 'if true { create leg as c; } remove @name c;',
        'let x = 1; if true { if true { let y = x; } else { let y = "t"; } let @name x = 3; }',
        'if true { let y = 1; } if true { emit text(@name y); }',
        'if @mismatch 1 { }', 'if @mismatch 1 { emit x; }', 'if @mismatch "t" { } else { }', 'if @name x { }', 'if true { emit @name x; } else { emit y; }',
        'if true { } else { emit @name y; }', 'while @mismatch none { }', 'while @name x { emit y; }', 'while true { emit @name x; }',
        'while self.n < 3 { self.n = self.n + 1; }', 'if true { emit @mismatch 1; } emit x;',
        # for
        'for c in leg { remove c; }', 'for c in own { call c.run(1, "w"); }', 'for c in @name arm { emit x; }', 'let c = 1; for @name c in leg { }',
        'let c = 1; for @name c in arm { }', 'let a = 1; for @name a in activities { }', 'for a in activities { detach self from a; }',
        'for a in activities { emit @mismatch a; }', 'for a in activities { remove @mismatch a; }', 'for c in leg { emit @place c; }',
        'for c in leg { } remove @name c;', 'for c in leg { for @name c in leg { } }', 'for c in leg { let @name c = 1; }',
        'for c in leg { } for c in own { }', 'for c in leg { for d in own { call d.run(1, "w"); call c.@name run(1, "w"); } }',
        # fields and attributes
        'self.n = 1;', 'self.@name z = 1;', 'self.@name z = y;', 'self.n = @mismatch "t";', 'self.n = @mismatch none;', 'self.t = "a" ++ self.t;',
        'self.f = self.n < 3;', 'self.a = activity;', 'self.a = none;', 'self.m = none;', 'self.m = (none);', 'self.m = @mismatch activity;',
        'self.m = @mismatch self.a;', 'self.n = @name y;', 'emit self.@name z;', 'emit @mismatch self.n;', 'let x = -self.@name z;',
        'attr(activity, hits) = 1;', 'attr(none, tag) = "t";', 'attr(activity, owner) = none;', 'attr(@mismatch 1, hits) = 1;',
        'attr(@mismatch 1, z) = y;', 'attr(@name x, z) = y;', 'attr(activity, @name z) = y;', 'attr(activity, hits) = @mismatch "t";',
        'attr(activity, hits) = @name y;', 'emit attr(activity, tag);', 'let x = attr(activity, @name z);', 'let x = attr(@mismatch "t", z);',
        'emit @mismatch attr(activity, hits);', 'attr(self.a, hits) = attr(self.a, hits) + 1;',
        # children
        'create leg as c; remove c;', 'create @name arm as c;', 'create @name arm as c priority "t";', 'let c = 1; create @name arm as c;',
        'let c = 1; create leg as @name c;', 'let c = 1; create leg as @name c priority "5";', 'create leg as c priority 5;',
        'create leg as c priority @mismatch "5";', 'create leg as c priority @name c;', 'create leg as c; create leg as @name c;',
        'remove @name c;', 'let c = 1; remove @mismatch c;', 'create leg as c; priority c 5;', 'priority @name c 5;', 'priority @name c x;',
        'let c = 1; priority @mismatch c "t";', 'create leg as c; priority c @mismatch "t";', 'create leg as c; priority c @place c;',
        'create leg as c; emit text(priority(c));', 'emit text(priority(@name c));', 'let c = 1; emit text(priority(@mismatch c));',
        'create leg as c; emit @mismatch priority(c);',
        # calls
        'create leg as c; call c.twice(2) as x; emit text(x);', 'create leg as c; call c.twice(2);', 'create leg as c; call c.speak();',
        'create leg as c; call c.wait(none, none) as x; if x { }', 'create leg as c; call c.wait(self.m, self.a);',
        'create leg as c; call c.wait(@mismatch activity, none);', 'create leg as c; call c.wait(none, @mismatch self.m);',
        'create leg as c; call c.join("a", 1) as x; emit x ++ x;', 'create leg as c; call c.join("a", 1) as x; emit text(@mismatch x);',
        'create own as d; call d.run(1, "w");', 'create own as d; call d.@name twice(1);', 'call @name c.twice(1);', 'call @name c.thrice(x) as c;',
        'let c = 1; call @mismatch c.twice(1);', 'create leg as c; call c.@name thrice(1);', 'create leg as c; call c.@name thrice(x);',
        'create leg as c; call c.twice(@mismatch "t");', 'create leg as c; call c.twice(@mismatch (("t")));', 'create leg as c; call c.twice((@name z));',
        'create leg as c; call c.@count twice();', 'create leg as c; call c.@count twice(1, 2);', 'create leg as c; call c.@count twice(1, "t");',
        'create leg as c; call c.twice(@mismatch "t", 2);', 'create leg as c; call c.twice(1, @name y);', 'create leg as c; call c.twice(@name y, "t");',
        'create leg as c; call c.twice(1, 2, @mismatch "t" + 1);', 'create leg as c; call c.join("a", @mismatch "b");',
        'create leg as c; call c.join(@mismatch 1, "b");', 'create leg as c; call c.@count join("a") as c;', 'create leg as c; call c.@count speak(1) as x;',
        'create leg as c; call c.speak() as @place x;', 'let x = 1; create leg as c; call c.speak() as @place x;',
        'let x = 1; create leg as c; call c.twice(1) as @name x;', 'create leg as c; call c.twice(2) as @name c;',
        'create leg as c; call c.twice(2 * 3 + 4) as @name c;', 'create leg as c; call c.join("a" ++ "b", 2 + 3) as @name c;',
        'create leg as c; call c.twice(@name x) as x;', 'create leg as c; call c.twice(@place c);',
        # activities
        'attach self to activity;', 'attach self to none;', 'create leg as c; attach c to activity;', 'attach self to @mismatch 1;',
        'attach @name c to 1;', 'let c = 1; attach @mismatch c to x;', 'detach self from @mismatch "a";', 'detach @name c from activity;',
        'detach self from @name x;', 'mask "go" on activity;', 'mask "timer" on activity;', 'mask "activity-end" on activity;',
        'mask @name "come" on 1;', 'mask "go" on @mismatch 1;', 'unmask "profile-added" on activity;', 'unmask @name "come" on 1;',
        'unmask "go" on @name x;', 'null as x; end x;', 'let x = 1; null as @name x;', 'end none;', 'end @mismatch 1;', 'end @name x;',
        'end @mismatch self.m;', 'bind "n" to activity;', 'bind @mismatch 1 to activity;', 'bind "n" to @mismatch "a";', 'bind @mismatch true to x;',
        'bind "a" ++ "b" to @name x;', 'unbind "n";', 'unbind @mismatch 1;', 'suspend 5;', 'suspend @mismatch "t";', 'suspend @name x;',
        'resume activity;', 'resume @mismatch 1;',
        # fire
        'fire "go" on activity {dest: "d", n: 1};', 'fire "go" on activity {n: 1, dest: "d"};', 'fire "bare" on none;', 'fire "bare" on none for "u";',
        'fire "mix" on activity {a: none, f: true, n: 1, t: "t", w: none};', 'fire "mix" on activity {a: none, f: true, n: 1, t: "t", w: @mismatch activity};',
        'fire @name "come" on 1;', 'fire @name "timer" on activity {which: none};', 'fire @name "service-started" on activity;',
        'fire @count "go" on activity;', 'fire @count "go" on activity {n: 1};', 'fire @count "go" on activity for "s" {dest: "d"};',
        'fire "go" on activity {n: 1, @name z: 2, dest: "d"};', 'fire "go" on activity {n: 1, @name z: y};', 'fire "go" on activity {n: 1, @count n: "t"};',
        'fire "go" on activity {dest: "d", n: 1, @count dest: y};', 'fire "go" on activity {n: @mismatch "t"};', 'fire "go" on activity {n: @name y, n: 1};',
        'fire "go" on activity {n: 1 + 2, dest: @mismatch 4};', 'fire "go" on @mismatch 1 {n: "t"};', 'fire "go" on @name x for "q";',
        'fire "go" on activity for "s" {dest: "d", n: 1};', 'fire "go" on activity for @name "q" {dest: 1};', 'fire "go" on activity for @name "b" {dest: 1};',
        'fire "go" on lookup("n") for "u" {dest: "d", n: @mismatch true};', 'fire "bare" on activity {@name n: 1};',
        # timers
        'timer x on activity at now + 1000;', 'timer x on activity at 0 every 5 times 3 keep last; cancel x;', 'timer x on none at 0 keep none; self.m = x;',
        'let x = 1; timer @name x on 1 at "t";', 'timer x on @mismatch 1 at "t";', 'timer x on activity at @mismatch "t" every y times z;',
        'timer x on activity at 0 every @mismatch true times "t";', 'timer x on activity at 0 every 5 times @mismatch "t" keep all;',
        'timer x on @name x at 0;', 'timer x on activity at 0; let @name x = 1;', 'cancel none;', 'cancel @mismatch activity;', 'cancel @mismatch 1;',
        'cancel @name x;',
        # what is said
        'emit @mismatch 1;', 'emit @mismatch none;', 'emit @mismatch now;', 'emit @mismatch activity;', 'usage granted 5;', 'usage granted @mismatch "t";',
        'usage granted @name x;', 'throw "t";', 'throw @mismatch 1;', 'rollback;', '@place return 1;', 'return @name x;', '@place return none;',
        # operators
        'emit @mismatch 1 + 2;', 'emit "a" ++ @mismatch 1;', 'emit @mismatch 1 ++ "a";', 'let x = 1 + @mismatch "a";', 'let x = @mismatch "x" + y;',
        'let x = 1 - @name y;', 'let x = 1 * 2 / 3 % 4;', 'let x = 1 + 2 + @mismatch "a" + 4;', 'let x = 1 + 2 * @mismatch "a";', 'let x = -@mismatch "a";',
        'let x = -(@name y);', 'let x = not @mismatch 1;', 'let x = not true and false or true;', 'let x = @mismatch 1 and true;',
        'let x = true and @mismatch 1;', 'let x = true or @mismatch none;', 'let x = 1 == @mismatch "a";', 'let x = "a" != @mismatch true;',
        'let x = none == self.m;', 'let x = self.m == none;', 'let x = self.m != (none);', 'let x = none == none;', 'let x = self.a == none;',
        'let x = self.m == @mismatch self.a;', 'let x = 1 == @mismatch none;', 'let x = true == false;', 'let x = activity != none;',
        'let x = @mismatch true < false;', 'let x = 1 < @mismatch "a";', 'let x = "a" <= "b";', 'let x = "a" > @mismatch 1;', 'let x = @mismatch none >= none;',
        'let x = @mismatch activity < 1;', 'let x = @mismatch self.m < none;', 'let x = 1 < 2 and @mismatch 3;', 'let x = (1 < 2) == (3 < 4);',
        'emit @mismatch (1) + 2;', 'emit (@mismatch 1 ++ "a");', 'let x = @name y == z;', 'let x = @mismatch 1 and y;', 'let x = @name y and 1;',
        # functions
        'emit text(true);', 'emit text(@mismatch "a");', 'emit text(@mismatch none);', 'emit text(@name x);', 'let x = len(@mismatch 1);',
        'let x = len("a") + 1;', 'emit @mismatch len("a");', 'let x = active(@mismatch 1);', 'let x = active(none) and true;',
        'let x = attached(@mismatch "a");', 'let x = bound(@mismatch 1);', 'let x = lookup(@mismatch 1);', 'end lookup("n");', 'end table(banned);',
        'let x = table(@name users);', 'let x = profile(accounts, "e", seconds) + 1;', 'let x = profile(@name users, 1, z);',
        'let x = profile(accounts, @mismatch 1, z);', 'let x = profile(accounts, @name y, z);', 'let x = profile(accounts, "e", @name z);',
        'emit profile(accounts, "e", name);', 'emit @mismatch profile(accounts, "e", vip);', 'let x = has_profile(accounts, "e") == true;',
        'let x = has_profile(@name users, 1);', 'let x = has_profile(accounts, @mismatch 1);', 'let x = count(leg) + 1;', 'let x = count(@name arm);',
        'create leg as arm; let x = count(@name arm);', 'let x = has_timer(none);', 'let x = has_timer((none));', 'let x = has_timer(@mismatch activity);',
        'let x = has_timer(self.m);', 'let x = masked("go", activity) or masked("timer", none);', 'let x = masked(@name "come", 1);',
        'let x = masked("go", @mismatch 1);', 'emit text(len(text(@mismatch "a")));',
        # the event, and what is for others
        'emit event.s ++ text(event.x);', 'emit event.@name z;', 'emit @mismatch event.x;', 'emit @place failure;', 'let x = 1 + @place failure;',
        # places
        'let x = 1;\n\temit\n  @mismatch x;', '# one\nlet x = 1; # two\r\n\r\nemit text(@name y);', 'emit "é" ++ @mismatch 1;',
        'emit "\\"\\n" ++ @mismatch 1;', '   \n@name x=1;', 'let xx=1;xx=@mismatch "a"++"b";',
        'emit ' + '(' * 60 + '@name x' + ')' * 60 + ';', 'if true { ' * 60 + 'emit @mismatch 1; ' + '} ' * 60,
        # 64 levels
        'emit ' + '(' * 64 + '@name x' + ')' * 64 + ';', 'if true { ' * 64 + 'emit @mismatch 1; ' + '} ' * 64,
        'if true { ' * 32 + 'emit @mismatch ' + '(' * 32 + '1' + ')' * 32 + '; ' + '} ' * 32, 'emit ' + '(' * 64 + '"a"' + ')' * 64 + ';',
        'let x = ' + '1 + ' * 300 + '@mismatch "a" + y;',
    ],
    "timer": ['cancel event.which;', 'cancel event.@name when;', 'end @mismatch event.which;', 'let x = event.which == none;'],
    "end": ['emit "over";', 'emit event.@name s;', 'emit @place failure;', 'suspend 1;'],
    "row": ['emit event.row;', 'let x = @mismatch event.row + 1;', 'let x = profile(accounts, event.row, seconds);'],
    "started": ['emit event.@name row;', 'attach self to activity;'],
    "run": [
        'emit w ++ text(x);', 'let @name x = 1;', 'x = x + 1; w = "t";', 'x = @mismatch w;', 'emit @mismatch x;', '@place return 1;', 'return @name y;',
        'emit @place event.s;', 'emit @place event.z;', 'emit @place failure;', 'let y = activity; end y;', '@place suspend 5;', 'suspend @mismatch w;',
        'resume none;', 'rollback; throw w;', 'for a in activities { end a; }', 'remove @mismatch x;', 'if x == 1 { let y = w; } emit @name y;',
    ],
    "int": ['return 1;', 'return @mismatch "t";', 'return @name x;', 'if true { return @mismatch none; }', '', 'return 1; return @mismatch true;'],
    "text": ['return self.t;', 'return @mismatch self.n;', 'emit @name x;'],
    "bool": ['return true == false;', 'return @mismatch self.m;'],
    "activity": ['return none;', 'return activity;', 'return @mismatch self.m;'],
    "a_timer": ['return none;', 'return (none);', 'return self.m;', 'return @mismatch activity;', 'return @mismatch 0;'],
    "exception": [
        'emit failure;', 'emit failure ++ self.t;', 'let x = @mismatch failure + 1;', 'emit @place event.s;', 'emit @place event.z;', '@place return failure;',
        '@place suspend 1;', 'suspend @mismatch failure;', 'resume activity;', 'rollback;', 'throw failure;', 'end activity;',
    ],
    "rolled_back": ['emit failure;', 'emit @mismatch len(failure);', 'emit @place event.s;', '@place return 1;', '@place suspend 1;', 'create leg as c; remove c;'],
    "remove": [
        'let x = 1; x = x + 1; emit text(x);', 'emit self.t ++ text(len(self.t));', 'if self.n == 0 { emit "z"; } else { while false { } }',
        'let x = none; let y = self.m == none;', 'let x = 1; let @name x = 2;', 'emit @name x;', 'emit self.@name z;', 'emit @place failure;',
        'emit @place event.s;', 'let x = @place now;', 'let x = @place activity;', 'let x = 1 + @place now;', '@place self.n = 1;', 'self.n = @mismatch "t";',
        'self.@name z = 1;', '@place attr(none, hits) = 1;', 'attr(@place activity, hits) = "t";', 'attr(none, @name z) = 1;',
        'attr(none, hits) = @mismatch "t";', 'let x = @place attr(none, hits);', 'let x = attr(none, @name z);', 'let x = @place bound("n");',
        'let x = bound(@mismatch 1);', 'let x = @place lookup("n");', 'let x = @place active(none);', 'let x = @place attached(none);',
        'let x = @place masked("go", none);', 'let x = masked(@name "come", none);', 'let x = @place has_timer(none);', 'let x = @place count(leg);',
        'let x = count(@name arm);', 'let x = @place table(accounts);', 'let x = table(@name users);', 'let x = @place profile(accounts, "e", seconds);',
        'let x = profile(accounts, "e", @name z);', 'let x = @place has_profile(accounts, "e");', 'emit text(@place count(leg));',
        'let x = @mismatch "a" + now;', 'let x = text(1) ++ @place lookup("n");',
        '@place create leg as c;', 'create @name arm as c;', 'create leg as c priority @mismatch "t";', 'remove @name c;',
        'for c in leg { @place remove c; }', 'for c in leg { @place priority c 5; }', 'for c in leg { priority c @place now; }',
        'for c in leg { let x = @place priority(c); }', 'for c in leg { @place call c.speak(); }', 'for c in leg { call c.@count speak(1); }',
        'for c in leg { call c.speak() as @place x; }', 'for c in leg { @place call c.twice(1) as x; }', '@place for c in leg { emit "x"; }',
        '@place for a in activities { }', 'for c in @name arm { }', 'for c in leg { emit @name x; }', '@place attach self to none;',
        'attach self to @mismatch 1;', '@place detach self from none;', '@place mask "go" on none;', '@place unmask "go" on none;', '@place fire "bare" on none;',
        'fire @count "go" on none;', 'fire "go" on none {n: @place now};', '@place null as x;', 'let x = 1; null as @name x;', '@place end none;',
        '@place timer x on none at 0;', 'timer x on none at @place now;', '@place cancel none;', '@place bind "n" to none;', '@place unbind "n";',
        '@place usage granted 5;', 'usage granted @mismatch "t";', '@place rollback;', '@place throw "t";', '@place return 1;', '@place suspend 1;',
        '@place resume none;', 'if true { let x = 1; } emit text(@name x);',
    ],
}


def with_scripts(**members):
    """The deployment above, with these members of block b."""
    whole = copy.deepcopy(WORLD)
    whole["blocks"][0].update(members)
    return whole


def with_child(**members):
    whole = copy.deepcopy(WORLD)
    whole["blocks"][1].update(members)
    return whole


def on(event, *lines):
    return {"event": event, "on": list(lines)}


def does(script):
    return {"do": script}


BAD = "emit x;"
WHOLE = [
    ("nothing", {}, None),
    ("no script but the methods", WORLD, None),
    ("lines of a script", with_scripts(events=[on("ping", "let x = 1;", "", "emit x;")]), "/blocks/0/events/0/on 3:6 mismatch"),
    ("second handler", with_scripts(events=[on("ping", "emit \"a\";"), on("timer", BAD)]), "/blocks/0/events/1/on 1:6 name"),
    ("first of two handlers", with_scripts(events=[on("ping", "emit 1;"), on("timer", BAD)]), "/blocks/0/events/0/on 1:6 mismatch"),
    ("handler before method", with_scripts(events=[on("ping", BAD)], methods={"a": does("emit 1;")}), "/blocks/0/events/0/on 1:6 name"),
    ("methods in byte order", with_scripts(methods={"b": does("emit 1;"), "aa": does(BAD), "a_": does("throw 1;")}), "/blocks/0/methods/a_/do 1:7 mismatch"),
    ("method before exception", with_scripts(methods={"z": does("emit 1;")}, exception=BAD), "/blocks/0/methods/z/do 1:6 mismatch"),
    ("exception before rolled_back", with_scripts(rolled_back="emit 1;", exception=BAD), "/blocks/0/exception 1:6 name"),
    ("rolled_back before remove", with_scripts(remove="emit 1;", rolled_back=BAD), "/blocks/0/rolled_back 1:6 name"),
    ("remove before the next block", {**with_scripts(remove=BAD), "events": []}, "/blocks/0/remove 1:6 name"),
    ("second block", with_child(exception="emit failure; emit x;"), "/blocks/1/exception 1:20 name"),
    ("field of another block", with_child(remove="emit text(self.n);"), "/blocks/1/remove 1:16 name"),
    ("relation of another block", with_child(exception="create leg as x;"), "/blocks/1/exception 1:8 name"),
    ("attribute of another block", with_child(exception="attr(none, hits) = 1;"), "/blocks/1/exception 1:12 name"),
    ("method of a later block", with_scripts(exception="create leg as c; call c.join(\"a\", 1) as x; emit x;"), None),
    ("variables of another script", with_scripts(events=[on("ping", "let x = 1;"), on("timer", "emit text(x);")]), "/blocks/0/events/1/on 1:11 name"),
    ("parameters of another method", with_scripts(methods={"a": {"params": parameters(x="int"), "do": ""}, "b": does(BAD)}), "/blocks/0/methods/b/do 1:6 name"),
]


def marked(script):
    """The script without its mark, and its first fault: line, column and kind, columns in bytes."""
    mark = MARK.search(script)
    if mark is None:
        return script, None
    before, behind = script[:mark.start()], script[mark.end():]
    assert not MARK.search(behind), script
    line = before.rpartition("\n")[2]
    return before + behind, f"{1 + before.count(chr(10))}:{1 + len(line.encode())} {mark.group(1)}"


def rows():
    """A name, a deployment and its answer each."""
    for role, scripts in ROWS.items():
        for marked_script in scripts:
            script, fault = marked(marked_script)
            yield f"{role}: {marked_script[:120]!r}", placed(role, script), fault and f"{PATHS[role]} {fault}"
    yield from WHOLE


def path_of(deployment, place):
    block = deployment["blocks"][place.block]
    part = place.part.con.name
    if part == "Handler":
        where = f"events/{place.part.args[0]}/on"
    elif part == "Method":
        where = f"methods/{deployments.in_order(block['methods'])[place.part.args[0]][0]}/do"
    else:
        where = {"Exception": "exception", "RolledBack": "rolled_back", "Remove": "remove"}[part]
    return f"/blocks/{place.block}/{where}"


def script_at(deployment, path):
    value = deployment
    for step in path[1:].split("/"):
        value = value[int(step)] if isinstance(value, list) else value[step]
    return value if isinstance(value, str) else "\n".join(value)


def answer(world, deployment):
    try:
        deployments.Deployment(world, json.dumps(deployment))
        return None
    except deployments.Refused as refused:
        if refused.args[0] != "check":
            return f"{refused.args[0]} {refused.args[1]}"
        place, misuse = refused.args[1]
        path = path_of(deployment, place)
        text = deployments.text(script_at(deployment, path))
        found = world.eval("script_types.specs.TypingPlaces.place_of_misuse")(text, misuse)
        return f"{path} {found.line}:{found.column} {misuse.kind.con.name.lower()}"


def print_documents():
    for _, deployment, _ in rows():
        print(json.dumps(deployment, separators=(",", ":"), ensure_ascii=False))


def print_answers():
    for _, _, fault in rows():
        print(f"check {fault}" if fault else "ok")


def main():
    if sys.argv[1:] == ["--documents"]:
        return print_documents()
    if sys.argv[1:] == ["--answers"]:
        return print_answers()
    world = deployments.world()
    if world is None:
        print("check_rows: skipped, the tool that evaluates definitions isn't here (deployments.py)")
        return 0
    chosen = [row for row in rows() if not sys.argv[1:] or sys.argv[1] in row[0]]
    wrong = 0
    for name, deployment, wanted in chosen:
        found = answer(world, deployment)
        if found != wanted:
            wrong += 1
            print(f"{name}: {found}, and by hand {wanted}")
    print(f"{len(chosen)} rows, {wrong} differ")
    return 1 if wrong else 0


def deep_main():
    """The definitions recurse as deep as scripts are long."""
    if deployments.world() is None:
        return main()
    import rundefs

    return rundefs.deep(main)


if __name__ == "__main__":
    sys.exit(deep_main())
