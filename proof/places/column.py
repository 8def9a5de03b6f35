#!/usr/bin/python3
"""Tries what a column costs: agents get `logged`, the moment at which each last logged on, NULL before.

usage: proof/places/column.py COPY    (COPY is a clone of the repository, which is changed)

It prints each place, by crate and kind, and counts them. Status 1 says that a text doesn't stand as often as is said here; then mend it here.
After it `rt check` in the crates of COPY says whether places are missing.
The column is put into version 2 as it is: the places of a new version of the file come on top."""
from places import copy_of_command_line

places = copy_of_command_line(__doc__)
put, after = places.put, places.after

# ---- the record, and what fills it

put("crates/acd_terms/src/record.rt", ("    pub since: u32,\n    pub state: AgentState,\n", """\
    pub since: u32,
    /// The moment at which the agent last logged on, if ever.
    pub logged: Option<u32>,
    pub state: AgentState,
"""))
after("crates/acd_model/specs/AgentMoves.antt", ("station = Some station; groups = groups; stamp = turn.stamp; since = turn.moment", "; logged = Some turn.moment"))
after("crates/acd_model/specs/Services/AddAgent.antt", ("stamp = turn.stamp; since = turn.moment", "; logged = None"))
after("crates/acd_services/src/agent_moves.rt", ("        groups,\n        stamp: at.stamp,\n        since: at.moment,\n", "        logged: Some(at.moment),\n"))
after("crates/acd_services/src/add_agent.rt", ("        since: at.moment,\n", "        logged: None,\n"))
after("crates/acd_desk_laws/specs/OldStep.antt", ("groups = group ∷ []; stamp = turn.stamp; since = turn.moment", "; logged = Some turn.moment"))

# ---- examples: when an agent of theirs logged on

after("crates/acd_model/specs/Examples/Words.antt", ("stamp = 4; since = 0", "; logged = None"), ("groups = billing ∷ []; since = moment", "; logged = Some moment"))

# ---- proofs that write a whole record, or each of its fields

put("crates/acd_lemmas/proofs/SameRecords.antt",
    ("    let state = two since.1 in\n    λ i. record {\n      agent", "    let logged = two since.1 in\n    let state = two logged.1 in\n    λ i. record {\n      agent"),
    ("      since = eqb-true x.since y.since since.0 i;\n", "      since = eqb-true x.since y.since since.0 i;\n      logged = number_same x.logged y.logged logged.0 i;\n"))
after("crates/acd_laws/proofs/Rules/RulesOfPlanning.antt", ("      since = turn.moment;\n", "      logged = Some turn.moment;\n"))
after("crates/acd_laws/proofs/Rules/BoundsStep.antt", ("groups = groups; stamp = k; since = m", "; logged = Some m"))
after("crates/acd_laws/proofs/Watched/EffectReports.antt", ("groups = groups; stamp = turn.stamp; since = turn.moment", "; logged = Some turn.moment"))

# ---- JSON

after("crates/acd_codec/specs/ReadTexts.antt", ("    ∷ (groups_parts a.groups\n", "    ++ number_part (codes \"logged\") a.logged\n"))
put("crates/acd_codec/specs/ReadTexts.antt", ("    ++ text_part (codes \"name\") (Some a.name)\n", "    ∷ text_part (codes \"name\") (Some a.name)\n"))
after("crates/acd_codec/src/read_texts.rt", ("    put_groups(out, &agent.groups)?;\n", "    put_number_if(out, \"logged\", agent.logged.map(u64::from))?;\n"))
put("crates/acd_codec/proofs/read_texts/put_agent_members/Answers.antt",
    ("    let pending : option_map (λ t. t.now) c.map.result", "    let logged : c.map.result ≡ c.args.agent.now.logged = search rules in\n    let pending : option_map (λ t. t.now) c.map-2.result"),
    ("c.put_number_if.new.out end _ _ c.in_ok-put_number_if.ensures c.put_text-2.ensures", "c.put_number_if-2.new.out end _ _ c.in_ok-put_number_if-2.ensures c.put_text-2.ensures"),
    ("    let named = adds_then r c.put_groups.new.out c.put_text.new.out end _ _ c.in_ok-put_text.ensures kept in\n",
     "    let named = adds_then r c.put_number_if.new.out c.put_text.new.out end _ _ c.in_ok-put_text.ensures kept in\n"
     "    let entered = adds_then r c.put_groups.new.out c.put_number_if.new.out end _ _ c.in_ok-put_number_if.ensures named in\n"),
    ("c.in_ok-put_groups.ensures named in", "c.in_ok-put_groups.ensures entered in"), ("      sym pending,\n", "      sym logged,\n      sym pending,\n"))

# ---- the store

put("crates/acd_sql_columns/src/columns.rt", ("            7 (stamp: stamp) \"stamp\" \"INTEGER NOT NULL\",\n            8 (since: moment) \"since\" \"INTEGER NOT NULL\"\n", """\
            7 (stamp: stamp) "stamp" "INTEGER NOT NULL",
            8 (since: moment) "since" "INTEGER NOT NULL",
            9 (logged: moment_or_none) "logged" "INTEGER"
"""))
after("crates/acd_sql_columns/src/relations.rt", ("    pub since: u32,\n", "    pub logged: Option<u32>,\n"), ("            since: agent.since,\n", "            logged: agent.logged,\n"),
      ("            since: self.since,\n", "            logged: self.logged,\n"))
put("crates/acd_sql_columns/specs/Rows.antt",
    ("(λ a. a.stamp) ∷ field_named (codes \"since\") moment (λ a. a.since) ∷ []", "(λ a. a.stamp) ∷ field_named (codes \"since\") moment (λ a. a.since) ∷ may_have (codes \"logged\") moment (λ a. a.logged) ∷ []"),
    ("agent_made = λ agent name state pending station group stamp since. record", "agent_made = λ agent name state pending station group stamp since logged. record"), ("  since = since;\n", "  since = since;\n  logged = logged;\n"))
after("crates/acd_sql_columns/specs/Relations.antt", ("  since = a.since;\n", "  logged = a.logged;\n", 2))

# ---- tests, texts and scenes

TEXTS, BOOKS, SCENES = "tests/trials/texts/", "tests/trials/books/", "tests/trials/scenes/"
put(TEXTS + "lines.txt", *[(f'{groups},"name":"Ana"', f'{groups},"logged":{logged},"name":"Ana"') for groups, logged in [('"group":"110"', 15), ('"groups":["100","110"]', 20), ('"106","107"]', 24)]])
put(TEXTS + "exchanges.txt",
    ('"group":"100","name":"Ana","since":120', '"group":"100","logged":90,"name":"Ana","since":120'), ('"group":"100","name":"Ana","since":25', '"group":"100","logged":15,"name":"Ana","since":25'),
    ("Content-Length: 86\\r\nConnection", "Content-Length: 98\\r\nConnection"), ("Content-Length: 598\\r", "Content-Length: 610\\r", 2))
put(SCENES + "priorities.txt", *[(f'{old}"name":"Ana","since":{since}', f'{old}"logged":{logged},"name":"Ana","since":{since}') for old, since, logged in [
    ('"groups":["100","110"],', 18, 15), ('"agent":"7",', 22, 20), ('"group":"110",', 24, 23), ('"170"],', 20, 15), ('"0201"],', 3, 3), ('"agent":"7",', 60, 3), ('"07"],', 2, 2), ('"agent":"7",', 15, 5)]])
put(SCENES + "reads.txt", ('"group":"100","name":"Ana"', '"group":"100","logged":15,"name":"Ana"', 3), ('"groups":["100","110"],"name"', '"groups":["100","110"],"logged":15,"name"'),
    ('"group":"110","name":"Ben"', '"group":"110","logged":26,"name":"Ben"'))
after(SCENES + "reads.txt", ("~ 21 UPDATE agents SET since = 24 WHERE agent = 17\n", "~ 21 UPDATE agents SET logged = 14 WHERE agent = 17\n"))
put(SCENES + "corrections.txt", ('"group":"100","name":"Anabel"', '"group":"100","logged":5,"name":"Anabel"'), ('"group":"100","name":"B"', '"group":"100","logged":5,"name":"B"'))
put(SCENES + "limits.txt", ('"900000000001007"],"name"', '"900000000001007"],"logged":5,"name"'))
put(BOOKS + "several.txt", ("NULL,NULL,NULL,4,0);", "NULL,NULL,NULL,4,0,NULL);"), ("NULL,NULL,NULL,5,0);", "NULL,NULL,NULL,5,0,NULL);"), ("grp = 1100 AND since = 20", "grp = 1100 AND since = 20 AND logged = 15"))
put(BOOKS + "adopted.txt", ("stamp INTEGER NOT NULL, since INTEGER NOT NULL) STRICT;", "stamp INTEGER NOT NULL, since INTEGER NOT NULL, logged INTEGER) STRICT;"),
    ("1201, 1501, 1, 0);", "1201, 1501, 1, 0, 0);"), ("'Ben', 0, NULL, NULL, NULL, 1, 0)", "'Ben', 0, NULL, NULL, NULL, 1, 0, NULL)"), ("'Cem', 0, NULL, NULL, NULL, 1, 0)", "'Cem', 0, NULL, NULL, NULL, 1, 0, NULL)"))
after(BOOKS + "adopted.txt", ("bad row in agents: UPDATE agents SET since = 4294967296\n", "bad row in agents: UPDATE agents SET logged = 4294967296\n"))
put(BOOKS + "rules.txt", (", 9, 25);", ", 9, 25, 15);"), (", 5, 0);", ", 5, 0, NULL);"))
put(BOOKS + "rows.txt", ("1201, 1100, 1, 0);", "1201, 1100, 1, 0, 0);"), ("1202, 1100, 2, 0);", "1202, 1100, 2, 0, 0);"))
put(BOOKS + "migrated.txt", ("1201,1100,9,25);", "1201,1100,9,25,15);"), ("NULL,NULL,NULL,5,0);", "NULL,NULL,NULL,5,0,NULL);"))
put(BOOKS + "numbers.txt", *[(f", {stamp}, {since});", f", {stamp}, {since}, {logged});") for stamp, since, logged in [
    (20, 10, "NULL"), (21, 11, 5), (22, 12, 5), (23, 13, 5), (24, 14, 5), (25, 15, 5), (27, 17, 5), (26, 16, 5)]],
    *[(f'"{groups},"name":"{name}"', f'"{groups},"logged":5,"name":"{name}"') for groups, name in [('0110"]', "Ben"), ('0110"', "Cem"), *[('100"', name) for name in ["Dan", "Eva", "Fay", "Gus", "Hal"]]]])
after(BOOKS + "numbers.txt", ("AND stamp = 57 AND since = 147", " AND logged = 147"), ("AND stamp = 67 AND since = 157", " AND logged = 5"))

# ---- pages, and what is outside the gate

put("docs/USING.md", ("grp NULL references acd_groups, stamp, since |", "grp NULL references acd_groups, stamp, since, logged NULL |"))
put("docs/openapi.yaml", ("        name: {$ref: '#/components/schemas/Name'}, pending: {$ref: '#/components/schemas/PendingState'}, since",
    "        logged: {$ref: '#/components/schemas/Moment'}, name: {$ref: '#/components/schemas/Name'}, pending: {$ref: '#/components/schemas/PendingState'}, since"))
put("client/acd_types.py",
    ("    groups: NotRequired[list[DeviceId]]\n    name: Name\n", "    groups: NotRequired[list[DeviceId]]\n    logged: NotRequired[Moment]\n    name: Name\n"))
after("tests/switch.py", ("    since: int\n    state: str = \"null\"\n", "    logged: int = None\n"), ("        record.stamp, record.since = self.stamp, self.moment\n", "        record.logged = self.moment\n"))
put("tests/tables.py", ("grp INTEGER REFERENCES acd_groups, stamp {WHOLE}, since {WHOLE}\",", "grp INTEGER REFERENCES acd_groups, stamp {WHOLE}, since {WHOLE}, logged INTEGER\","),
    ("it.stamp, it.since) for agent", "it.stamp, it.since, it.logged) for agent"), ("device=it.station, name=it.name, pending", "device=it.station, logged=it.logged, name=it.name, pending"))
put("tests/trials/try-files", ("station? grp? stamp since\"", "station? grp? stamp since logged?\""), ("(\"agents\", \"since\", NUMBER + [\"10000000000\"], \"agent = 18\"),",
    "(\"agents\", \"since\", NUMBER + [\"10000000000\"], \"agent = 18\"), (\"agents\", \"logged\", NUMBER + [\"10000000000\"], \"agent = 17\"),"),
    ("(AFTER, \"UPDATE agents SET since = 17 WHERE agent = 17\"),", "(AFTER, \"UPDATE agents SET since = 17 WHERE agent = 17\"), (AFTER, \"UPDATE agents SET logged = 14 WHERE agent = 17\"),"))
put("tests/trials/try-http", ('"group":"100","name":"Ana","since"', '"group":"100","logged":\\d+,"name":"Ana","since"'), ('\\["100","110"\\],"name":"Benjamin"', '\\["100","110"\\],"logged":\\d+,"name":"Benjamin"'))

places.by_tool("docs/believed.txt", "proof/believed")
places.done()
