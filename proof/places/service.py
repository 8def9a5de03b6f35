#!/usr/bin/python3
"""Tries what a service costs: `parkHere` call, device makes the move of holdCall, and refuses in another order.

usage: proof/places/service.py COPY    (COPY is a clone of the repository, which is changed)

It prints each place, by crate and kind, and counts them. Status 1 says that a text doesn't stand as often as is said here; then mend it here.
After it `rt check` in the crates of COPY says whether places are missing.
A service with moves of its own needs a constructor of `Effect` and its cases too."""
from places import copy_of_command_line

places = copy_of_command_line(__doc__)
put, after, new = places.put, places.after, places.new


def as_variant(file, *changes, command=1, old=", ChangeAgent}"):
    """An import of the commands, with changes behind lines of the last service."""
    put(file, (old, old[:-1] + ", ParkHere}", command))
    after(file, *changes)


# ---- the command, and what it does

after("crates/acd_terms/src/command.rt", ("    ChangeAgent {\n        agent: AgentId,\n        name: Name,\n    },\n", """\
    /// A connected station holds the call, where it is parked.
    ParkHere {
        call: Serial,
        device: DeviceId,
    },
"""))
as_variant("crates/acd_lemmas/proofs/SameCommands.antt", ("same_command (ChangeAgent a n) (ChangeAgent b m) h = named ChangeAgent a n b m h\n", "same_command (ParkHere c d) (ParkHere e f) h = pair ParkHere c d e f h\n"))
new("crates/acd_model/specs/Services/ParkHere.antt", """\
-- parkHere: a connected station holds; whether it is connected is tested before whether it is a station.
use Rattle.std.specs.Prelude.{not, [], ◌∷◌}
use Rattle.std.specs.Option.{ok_or}
use Rattle.acd_terms.specs.Results.{◌>>=◌, ◌>>◌}
use Rattle.acd_terms.specs.States.{is_connected}
use Rattle.acd_terms.specs.Numbers.{Device, CallId}
use Rattle.acd_terms.specs.declared.rows.Rows.{Rows}
use Rattle.acd_terms.specs.declared.answer.Answer.TheVariants.{Nothing}
use Rattle.acd_terms.specs.declared.answer.Refusal.TheVariants.{UnknownCall, UnknownConnection, NotStation, WrongConnectionState}
use Rattle.acd_model.specs.Scans.{call_of, connection_of, is_station}
use Rattle.acd_model.specs.CallMoves.{hold}
use Rattle.acd_model.specs.ServiceAnswers.{Served, refuse_if, gives}

unfoldable pub park_here : Rows → CallId → Device → Served
park_here s call device = do
  ok_or (call_of s call) UnknownCall
  x ← ok_or (connection_of s call device) UnknownConnection
  refuse_if (not (is_connected x.state)) WrongConnectionState
  refuse_if (not (is_station s device)) NotStation
  gives Nothing (hold x ∷ [])
""")
after("crates/acd_model/specs/Services.antt", ("pub mod ChangeAgent\n", "pub mod ParkHere\n"),
      ("unfoldable pub use Rattle.acd_model.specs.Services.ChangeAgent.{change_agent}\n", "unfoldable pub use Rattle.acd_model.specs.Services.ParkHere.{park_here}\n"))
as_variant("crates/acd_model/specs/Services/Serve.antt", ("use Rattle.acd_model.specs.Services.ChangeAgent.{change_agent}\n", "use Rattle.acd_model.specs.Services.ParkHere.{park_here}\n"),
           ("serve s turn (ChangeAgent agent name) = change_agent s agent name\n", "serve s turn (ParkHere call device) = park_here s call device\n"))
after("crates/acd_model/proofs/OnLiterals.antt", ("change_group, change_agent", ", park_here"), ("change_group change_agent", " park_here"))
put("crates/acd_model/src/lib.rt", ("nineteen services", "twenty services"))

# ---- examples

EXAMPLES = "crates/acd_model/specs/Examples/"
put(EXAMPLES + "Agents.antt", ("{MakeCall, HoldCall, RetrieveCall, ClearConnection, DeflectCall, SingleStepTransfer}", "{MakeCall, HoldCall, RetrieveCall, ClearConnection, DeflectCall, SingleStepTransfer, ParkHere}"))
put(EXAMPLES + "Agents.antt", ("-- a transfer to a station: the transferring agent has after-call work\n", """\
-- what is parked is held, until it is retrieved
abbrev pub ParkedAndRetrieved : Type 0
ParkedAndRetrieved =
    let r = run_after answered (at 30 (ParkHere 1 first_station) ∷ at 31 (ParkHere 1 first_station) ∷ at 34 (RetrieveCall 1 first_station) ∷ []) in
    (r.outcomes ≡ Done answer.Nothing ∷ Refused WrongConnectionState ∷ Done answer.Nothing ∷ [])
    × (r.events ≡ event 8 30 (Held 1 first_station) ∷ event 9 34 (Retrieved 1 first_station) ∷ [])

-- a transfer to a station: the transferring agent has after-call work
"""))
put(EXAMPLES + "Refusals.antt", (", HoldCall, RetrieveCall,", ", HoldCall, ParkHere, RetrieveCall,"), ("    (HoldCall 1 first_station, WrongConnectionState) ∷ (SingleStep", "    (HoldCall 1 first_station, WrongConnectionState) ∷ (ParkHere 1 first_station, WrongConnectionState) ∷ (SingleStep"))
put("crates/acd_model/src/examples.rt", ("HoldAndPending, TransferToStation", "HoldAndPending, ParkedAndRetrieved, TransferToStation"), ("    ensures hold_and_pending { HoldAndPending }\n", "    ensures hold_and_pending { HoldAndPending }\n    ensures parked_and_retrieved { ParkedAndRetrieved }\n"))
after("crates/acd_model/proofs/examples/agents/Answers.antt", ("returns-clause-hold_and_pending c = (refl, refl, refl, refl)\n", """
pub returns-clause-parked_and_retrieved : goal.returns-clause-parked_and_retrieved
unfolding switch_on_literals
returns-clause-parked_and_retrieved c = (refl, refl)
"""))

# ---- the code

places.like("crates/acd_services/src/park_here.rt", "crates/acd_services/src/hold_call.rt", ("holdCall", "parkHere"), ("HoldCall", "ParkHere"), ("hold_call", "park_here"),
            ("/// A connected station holds (Hold Call of ECMA-269).", "/// A connected station holds the call, where it is parked."), ("    refuse_if(!tables.is_station(device), NotStation)?;\n", ""),
            ("WrongConnectionState)?;\n", "WrongConnectionState)?;\n    refuse_if(!tables.is_station(device), NotStation)?;\n"))
after("crates/acd_services/src/lib.rt", ("mod monitor_stop;\n", "mod park_here;\n"))
after("crates/acd_services/src/serving.rt", ("use crate::monitor_stop::monitor_stop;\n", "use crate::park_here::park_here;\n"),
      ("        Command::ChangeAgent { agent, name } => change_agent(tables, agent, name),\n", "        Command::ParkHere { call, device } => park_here(tables, call.number(), device),\n"))

# ---- JSON

CODEC = "crates/acd_codec/"
as_variant(CODEC + "specs/Services.antt", ("row ChangeAgent = (codes \"changeAgent\", of_agent command.ChangeAgent)\n", "row ParkHere = (codes \"parkHere\", of_connection command.ParkHere)\n"),
           ("∷ ChangeGroup ∷ ChangeAgent", " ∷ ParkHere"),
           ("taken_apart (command.ChangeAgent agent name) = (ChangeAgent, Agent agent name)\n", "taken_apart (command.ParkHere call device) = (ParkHere, Connection call device)\n"))
after(CODEC + "src/service.rt", ("    ChangeAgent,\n", "    ParkHere,\n"), ("            RejectCall \"rejectCall\" reject_call_in Connection { call, device },\n", "            ParkHere \"parkHere\" park_here_in Connection { call, device },\n"))
put(CODEC + "src/reading.rt", ("fn retrieve_call_in(", """\
fn park_here_in(document: &Document<'_>) -> Result<Command, Member>
    ensures { result ≡ form_in (of_connection Command.ParkHere) (data_of document.now) }
{
    let (call, device) = connection_in(document)?;
    Ok(Command::ParkHere { call, device })
}

fn retrieve_call_in("""))

# ---- the desk: outcomes, and the desk of old

DESK = "crates/acd_desk_laws/"
as_variant(DESK + "proofs/Outcomes.antt", (", change_group, change_agent", ", park_here"), (" change_group change_agent", " park_here"),
           ("served_next s turn (RejectCall number device) = party number device _ _ _ (λ c x. unless _ _ _ nothing)\n", "served_next s turn (ParkHere number device) = party number device _ _ _ (λ c x. unless _ _ _ (unless _ _ _ nothing))\n"))
as_variant(DESK + "specs/OldStep.antt", ("old_serve s turn (ChangeAgent agent name) = Err NotGroup\n", "old_serve s turn (ParkHere call device) = Err NotGroup\n"))
as_variant(DESK + "specs/OldSound.antt", ("IsOldCommand (ChangeAgent agent name) = ⊥\n", "IsOldCommand (ParkHere call device) = ⊥\n"))
as_variant(DESK + "proofs/OldRuns.antt", ("same_serve s turn (ChangeAgent agent name) h = absurd h\n", "same_serve s turn (ParkHere call device) h = absurd h\n"))
as_variant(DESK + "proofs/OldStates.antt", ("serve_old s turn (ChangeAgent agent name) h o = absurd h\n", "serve_old s turn (ParkHere call device) h o = absurd h\n"))

# ---- laws

LAWS = "crates/acd_laws/proofs/"
as_variant(LAWS + "Effects.antt", (", change_group, change_agent", ", park_here"), ("effect_of_serve s turn (ChangeAgent agent name) = inl (refl, inl (effect_of_change_agent s turn agent name))\n", "effect_of_serve s turn (ParkHere call device) = inl (refl, inl (effect_of_park_here s turn call device))\n"))
put(LAWS + "Effects.antt", ("effect_of_retrieve_call : ", """\
effect_of_park_here : (s : Rows) (turn : Turn) (call device : ℕ) → EffectBy s turn (park_here s call device)
unfolding park_here
effect_of_park_here s turn call device =
    party _ _ _ (λ p _ at. unless _ _ (λ state. unless _ _ (λ station.
    holds p (ap (is_station s) at ∙ not-false (is_station s device) station) (not-false (is_connected p.x.state) state))))

effect_of_retrieve_call : """))
as_variant(LAWS + "Names/UnnamedServices.antt", (", change_group, change_agent", ", park_here"), ("unnamed_serve s turn (ChangeAgent agent name) = unnamed_change_agent s turn agent name\n", "unnamed_serve s turn (ParkHere call device) = unnamed_park_here s turn call device\n"))
put(LAWS + "Names/UnnamedServices.antt", ("  unnamed_retrieve_call : ", """\
  unnamed_park_here : IsUnnamed (park_here (unnamed s) call device) (park_here s call device)
  unfolding unnamed park_here station_of
  unnamed_park_here = party _ _ (λ c x. test _ refl (test _ refl (given refl)))

  unnamed_retrieve_call : """))

# ---- texts and scenes

after("tests/trials/texts/requests.txt", ('\n{"agent":"7","invoke":9,"name":"Anna","requester":"plan","service":"changeAgent"}\n', '{"call":1,"device":"201","invoke":9,"requester":"desk","service":"parkHere"}\n'))
after("tests/trials/texts/faulty.txt", ('call {"requester":"pbx","invoke":1,"service":"holdCall","call":1000000001,"device":"201"}\n', 'call {"requester":"pbx","invoke":1,"service":"parkHere","call":1000000001,"device":"201"}\n'))
SCENES = "tests/trials/scenes/"
after(SCENES + "refusals.txt", *[(line, line.replace("holdCall", "parkHere").replace(f"{invoke},", f"{invoke + 800},")) for invoke, line in [
    (131, '- 50 3 unknownCall {"call":9,"device":"999","invoke":131,"requester":"sup","service":"holdCall"}\n'), (132, '- 50 4 unknownConnection {"call":1,"device":"100","invoke":132,"requester":"sup","service":"holdCall"}\n'),
    (133, '- 50 9 notStation {"call":1,"device":"0301234","invoke":133,"requester":"sup","service":"holdCall"}\n'), (150, '- 50 5 wrongConnectionState {"call":1,"device":"201","invoke":150,"requester":"sup","service":"holdCall"}\n')]])
put(SCENES + "calls.txt", ("part hold_and_pending\n", """\
part parked_and_retrieved
> 30 {"call":1,"device":"201","invoke":4,"requester":"desk","service":"parkHere"}
< 200 {"invoke":4,"requester":"desk","result":{}}
! {"call":1,"device":"201","event":"held","moment":30,"number":8}
> 34 {"call":1,"device":"201","invoke":5,"requester":"desk","service":"retrieveCall"}
< 200 {"invoke":5,"requester":"desk","result":{}}
! {"call":1,"device":"201","event":"retrieved","moment":34,"number":9}

part hold_and_pending
"""))
after(SCENES + "calls.txt", ("scene hold_and_pending: plan call_arrives ana_becomes_ready ana_answers hold_and_pending\n", "scene parked_and_retrieved: plan call_arrives ana_becomes_ready ana_answers parked_and_retrieved\n"))

# ---- pages

after("docs/USING.md", ("| `changeAgent` agent, name | the agent has that name from now on; no event | unknownAgent |\n", "| `parkHere` call, device | connected to hold: held | unknownCall; unknownConnection; wrongConnectionState; notStation |\n"), ("`changeGroup`, `changeAgent`, `arriveCall`", ", `parkHere`"))
put("docs/openapi.yaml", ("        {$ref: '#/components/schemas/ChangeGroup'}, {$ref: '#/components/schemas/ChangeAgent'}]", "        {$ref: '#/components/schemas/ChangeGroup'}, {$ref: '#/components/schemas/ChangeAgent'}, {$ref: '#/components/schemas/ParkHere'}]"),
    ("changeAgent: '#/components/schemas/ChangeAgent'}", "changeAgent: '#/components/schemas/ChangeAgent', parkHere: '#/components/schemas/ParkHere'}"), ("    # replies\n", """\
    ParkHere:
      x-result: NoResult
      allOf:
        - {$ref: '#/components/schemas/ConnectionRequest'}
        - {type: object, required: [service], properties: {service: {type: string, enum: [parkHere]}}}
    # replies
"""))
put("client/acd_types.py", ("class Reply(TypedDict):\n    invoke", "class ParkHere(ConnectionRequest):\n    service: Literal['parkHere']\n\n\nclass Reply(TypedDict):\n    invoke"), ("RejectCall, ChangeGroup, ChangeAgent]", "RejectCall, ChangeGroup, ChangeAgent, ParkHere]"))
after("docs/PRUNING.md", ("`rejectCall`, `holdCall`,", " `parkHere`,"))
put("docs/MODEL.md", ("Each of the nineteen services", "Each of the twenty services"), ("to `Services/ChangeAgent`", "to `Services/ParkHere`"))
put("docs/PROVED.md", ("each of the nineteen services", "each of the twenty services"))

# ---- what is outside the crates

put("tests/switch.py", ("    def retrieve_call(self", """\
    def park_here(self, call, device):
        _, connection = self.found(call, device)
        refuse_if(connection.state != "connected", "wrongConnectionState")
        refuse_if(device not in self.stations, "notStation")
        connection.state = "hold"
        self.report("held", device=device, call=call)

    def retrieve_call(self"""), ("\"changeAgent\": change_agent,\n", "\"changeAgent\": change_agent, \"parkHere\": park_here,\n"))
put("tests/trials/try-sizes", ("all twenty services", "all twenty-one services"), ("\"rejectCall\", \"holdCall\", \"retrieveCall\"]],", "\"rejectCall\", \"holdCall\", \"parkHere\", \"retrieveCall\"]],"),
    ("\"holdCall\": [\"connected\"],", "\"holdCall\": [\"connected\"], \"parkHere\": [\"connected\"],"), ("(\"holdCall\", self.some(answered, 25)),", "(\"holdCall\", self.some(answered, 25)), (\"parkHere\", self.some(answered, 5)),"),
    ("[\"answerCall\", \"holdCall\", \"retrieveCall\"]:", "[\"answerCall\", \"holdCall\", \"retrieveCall\", \"parkHere\", \"retrieveCall\"]:"))
# in the mixed office alone, so that the morning stays as it is drawn; its day with a seed that shows all that is wanted
put("tests/office.py", ("DAY = Size(3004,", "DAY = Size(3006,"), ("\"singleStepTransfer\", \"rejectCall\"])", "\"singleStepTransfer\", \"rejectCall\"] + [\"parkHere\"] * self.size.mixed)"),
    ("            (1, self.set_priority, self", "            (1, self.act(\"parkHere\"), self.at_stations(\"connected\") if self.size.mixed else []),\n            (1, self.set_priority, self"))
put("tests/limits.py", ("        for call, device in self.some(self.at_agents(\"hold\"), 100):\n", "        for call, device in self.some(self.at_agents(\"connected\"), 20):\n            self.by_desk(\"parkHere\", call=call, device=device)\n        for call, device in self.some(self.at_agents(\"hold\"), 100):\n"))
put("tests/trials/api/bodies.py", ("\"rejectCall\", \"changeGroup\", \"changeAgent\"]", "\"rejectCall\", \"changeGroup\", \"changeAgent\", \"parkHere\"]"))
after("tests/trials/api/client.ts", ("service: 'rejectCall', call: 1, device: '201' });\n", "  await ask({ requester: 'desk', invoke: 8, service: 'parkHere', call: 1, device: '201' });\n"))
after("tests/trials/try-http", ("    (request(\"changeAgent\", agent=\"8\", name=\"Benjamin\"), {}),\n", "    (request.at(\"parkHere\", 1, \"202\"), None),\n"))
put("tests/trials/refuse-growths", ("(64, request(\"changeGroup\", device=\"100\", name=\"Bills\", ring=1, wrap=1)),", "(64, request(\"changeGroup\", device=\"100\", name=\"Bills\", ring=1, wrap=1)), (64, request.at(\"parkHere\", 2, \"202\")),"))
put("tests/trials/trail/foreseen.py", ("\"holdCall\", \"retrieveCall\",", "\"holdCall\", \"parkHere\", \"retrieveCall\","))
put("tests/trials/gate/leads.py", ("\"rejectCall\", \"holdCall\", \"retrieveCall\", \"singleStepTransfer\", \"monitorStart\"", "\"rejectCall\", \"holdCall\", \"parkHere\", \"retrieveCall\", \"singleStepTransfer\", \"monitorStart\""))
put("service/acd_service/gate/judging.py", ("\"holdCall\", \"retrieveCall\",", "\"holdCall\", \"parkHere\", \"retrieveCall\","))
put("tests/unit/gate/test_judging.py", ("\"rejectCall\", \"holdCall\", \"retrieveCall\",", "\"rejectCall\", \"holdCall\", \"parkHere\", \"retrieveCall\","))
put("board/agent/calls.js", ("holdCall: '', ", "holdCall: '', parkHere: '', "))
put("board/agent/mine.js", ("connected: ['holdCall', ", "connected: ['holdCall', 'parkHere', "))
put("board/words.js", ("holdCall: Hold\n", "holdCall: Hold\nparkHere: Park\n"))
put("board/words/de.js", ("holdCall: 'Halten',", "holdCall: 'Halten', parkHere: 'Parken',"))
put("tests/trials/board/buttons.mjs", ("'holdCall', 'retrieveCall',", "'holdCall', 'parkHere', 'retrieveCall',"))
after("bench/ordinary.h", ("ConnectionState::Hold, Kind::Held);\n", "        if (service == \"parkHere\") return hold_or_retrieve(m, ConnectionState::Connected, ConnectionState::Hold, Kind::Held);\n"))
after("bench/ordinary_store.cc", ("        {\"holdCall\", {\"call\", \"device\", \"invoke\", \"requester\", \"service\"}},\n", "        {\"parkHere\", {\"call\", \"device\", \"invoke\", \"requester\", \"service\"}},\n"))
after("bench/course.py", ("        yield self.block(\"retrieveCall\", lambda: self.at_agents(\"retrieveCall\"))\n", "        yield self.block(\"parkHere\", lambda: self.at_agents(\"parkHere\"))\n        yield self.block(\"retrieveCall, of what is parked\", lambda: self.at_agents(\"retrieveCall\"))\n"))

places.by_tool("docs/believed.txt", "proof/believed")
places.done()
