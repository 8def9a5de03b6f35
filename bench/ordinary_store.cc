// A second ordinary program, over a desk's file by libsqlite3: the switch of ordinary.h, the tables of docs/FORMATS.md, prepared statements
// and one transaction a request. It proves nothing, and believes its file.
//
//   g++ -O2 -std=c++20 -o ordinary_store bench/ordinary_store.cc -lsqlite3
//   ordinary_store lines|report|export|audit --file F | import --file F --plan C | serve --file F --port P --connections N
//
// The file is in WAL with synchronous FULL, as the desk's is: one fdatasync for each commit, before the answer. It is locked EXCLUSIVE, for the
// desk too lets nobody else in, so nothing is shared; foreign keys are on, and a new file has pages of 1,024 bytes, as the desk's (--page N
// makes others). Groups, stations, agents, calls and monitors are read into memory as it opens; kept requests and events stay in the file and are
// asked for there. With --check it opens behind a PRAGMA quick_check and foreign_key_check, with --all it reads every kept request and event too.
#include "ordinary.h"
#include <arpa/inet.h>
#include <cstdio>
#include <cstdlib>
#include <ctime>
#include <fstream>
#include <netinet/tcp.h>
#include <sqlite3.h>
#include <sys/socket.h>
#include <unistd.h>

static void fail(const char *what) {
    fprintf(stderr, "ordinary_store: %s\n", what);
    exit(1);
}

#define WHOLE "INTEGER NOT NULL"
static const char *const schema =
    "BEGIN;"
    "CREATE TABLE meta (id " WHOLE " PRIMARY KEY CHECK (id = 1), version " WHOLE ", max_requests " WHOLE ", max_calls " WHOLE ", max_groups " WHOLE
    ", max_stations " WHOLE ", max_agents " WHOLE ", max_monitors " WHOLE ", last_stamp " WHOLE ", last_moment " WHOLE ", last_call " WHOLE
    ", last_monitor " WHOLE ", last_event " WHOLE ") STRICT;"
    "CREATE TABLE acd_groups (device " WHOLE " PRIMARY KEY, name TEXT NOT NULL, ring " WHOLE ", wrap " WHOLE ", entered " WHOLE ", answered " WHOLE
    ", abandoned " WHOLE ", moved " WHOLE ", waited " WHOLE ") STRICT;"
    "CREATE TABLE stations (device " WHOLE " PRIMARY KEY) STRICT;"
    "CREATE TABLE agents (agent " WHOLE " PRIMARY KEY, name TEXT NOT NULL, state " WHOLE " CHECK (state BETWEEN 0 AND 4), pending INTEGER, station "
    "INTEGER UNIQUE REFERENCES stations, grp INTEGER REFERENCES acd_groups, stamp " WHOLE ", since " WHOLE ") STRICT;"
    "CREATE TABLE calls (call " WHOLE " PRIMARY KEY, caller " WHOLE ", called " WHOLE ", since " WHOLE ") STRICT;"
    "CREATE TABLE connections (call " WHOLE " REFERENCES calls, device " WHOLE ", state " WHOLE " CHECK (state BETWEEN 1 AND 6), "
    "grp INTEGER REFERENCES acd_groups, place INTEGER, queued INTEGER, offered INTEGER, PRIMARY KEY (call, device)) STRICT;"
    "CREATE TABLE monitors (monitor " WHOLE " PRIMARY KEY, device " WHOLE ", after_event " WHOLE ") STRICT;"
    "CREATE TABLE events (number " WHOLE " PRIMARY KEY, moment " WHOLE ", kind " WHOLE " CHECK (kind BETWEEN 1 AND 18), device INTEGER, "
    "call INTEGER, agent INTEGER, grp INTEGER, target INTEGER, cause INTEGER, waited INTEGER) STRICT;"
    "CREATE TABLE kept (stamp " WHOLE " PRIMARY KEY, requester TEXT NOT NULL, invoke " WHOLE ", moment " WHOLE ", request TEXT NOT NULL, "
    "status " WHOLE ", body TEXT NOT NULL, UNIQUE (requester, invoke)) STRICT;"
    "CREATE TABLE agent_groups (agent " WHOLE " REFERENCES agents, grp " WHOLE " REFERENCES acd_groups, PRIMARY KEY (agent, grp)) STRICT;"
    "CREATE TABLE group_priority (device " WHOLE " PRIMARY KEY REFERENCES acd_groups, priority " WHOLE " CHECK (priority BETWEEN 1 AND 9)) STRICT;"
    "INSERT INTO meta VALUES (1, 2, 1000000000, 2000, 64, 1000, 1000, 256, 0, 0, 0, 0, 0);"
    "COMMIT;";

enum {
    BEGIN, COMMIT, META, NEW_GROUP, GROUP, CHANGED_GROUP, NEW_STATION, NEW_AGENT, AGENT, CHANGED_AGENT, NEW_CALL, END_CALL, NEW_CONNECTION, CONNECTION, END_CONNECTIONS,
    NEW_MONITOR, END_MONITOR, NEW_EVENT, NEW_KEPT, FOUND, PAGE, MONITOR_PAGE, STATEMENTS
};

#define EVENT_COLUMNS "number, moment, kind, device, call, agent, grp, target, cause, waited"
static const char *const texts[STATEMENTS] = {
    "BEGIN",
    "COMMIT",
    "UPDATE meta SET last_stamp = ?, last_moment = ?, last_call = ?, last_monitor = ?, last_event = ? WHERE id = 1",
    "INSERT INTO acd_groups VALUES (?, ?, ?, ?, 0, 0, 0, 0, 0)",
    "UPDATE acd_groups SET entered = ?, answered = ?, abandoned = ?, moved = ?, waited = ? WHERE device = ?",
    "UPDATE acd_groups SET name = ?, ring = ?, wrap = ? WHERE device = ?",
    "INSERT INTO stations VALUES (?)",
    "INSERT INTO agents VALUES (?, ?, 0, NULL, NULL, NULL, ?, ?)",
    "UPDATE agents SET state = ?, pending = ?, station = ?, grp = ?, stamp = ?, since = ? WHERE agent = ?",
    "UPDATE agents SET name = ? WHERE agent = ?",
    "INSERT INTO calls VALUES (?, ?, ?, ?)",
    "DELETE FROM calls WHERE call = ?",
    "INSERT INTO connections VALUES (?, ?, ?, ?, ?, ?, ?)",
    "UPDATE connections SET device = ?, state = ?, grp = ?, place = ?, queued = ?, offered = ? WHERE call = ? AND device = ?",
    "DELETE FROM connections WHERE call = ?",
    "INSERT INTO monitors VALUES (?, ?, ?)",
    "DELETE FROM monitors WHERE monitor = ?",
    "INSERT INTO events VALUES (?, ?, ?, ?, ?, ?, ?, ?, ?, ?)",
    "INSERT INTO kept VALUES (?, ?, ?, ?, ?, ?, ?)",
    "SELECT request, status, body FROM kept WHERE requester = ? AND invoke = ?",
    "SELECT " EVENT_COLUMNS " FROM events WHERE number > ? ORDER BY number LIMIT 100",
    "SELECT " EVENT_COLUMNS " FROM events WHERE number > ? AND device = ? ORDER BY number LIMIT 100",
};

// What a request changed: a call with its connections as they were before.
struct Changes {
    std::set<uint64_t> groups, stations, agents, monitors, changed_groups, changed_agents;
    std::map<uint64_t, std::vector<Connection>> calls;

    void group(uint64_t n) { groups.insert(n); }
    void station(uint64_t n) { stations.insert(n); }
    void agent(uint64_t n) { agents.insert(n); }
    void monitor(uint64_t n) { monitors.insert(n); }
    void changed_group(uint64_t n) { changed_groups.insert(n); }
    void changed_agent(uint64_t n) { changed_agents.insert(n); }
    void call(uint64_t n, const Call *before) {
        if (!calls.count(n)) calls[n] = before ? before->connections : std::vector<Connection>();
    }
    void clear() {
        groups.clear(), stations.clear(), agents.clear(), monitors.clear(), calls.clear();
        changed_groups.clear(), changed_agents.clear();
    }
};

// A number that is NULL where it is 0, or where it doesn't hold.
struct Some {
    uint64_t n;
    bool holds;
    Some(uint64_t n) : n(n), holds(n) {}
    Some(uint64_t n, bool holds) : n(n), holds(holds) {}
};

class Database {
    sqlite3 *db = nullptr;
    sqlite3_stmt *statements[STATEMENTS];

    void bind(sqlite3_stmt *s, int at, uint64_t n) { see(sqlite3_bind_int64(s, at, n)); }
    void bind(sqlite3_stmt *s, int at, string_view text) { see(sqlite3_bind_text(s, at, text.data(), text.size(), SQLITE_STATIC)); }
    void bind(sqlite3_stmt *s, int at, Some n) { see(n.holds ? sqlite3_bind_int64(s, at, n.n) : sqlite3_bind_null(s, at)); }

  public:
    void see(int code) {
        if (code != SQLITE_OK && code != SQLITE_ROW && code != SQLITE_DONE) fail(sqlite3_errmsg(db));
    }
    void run(const string &sql) { see(sqlite3_exec(db, sql.c_str(), nullptr, nullptr, nullptr)); }
    void open(const char *file, unsigned page) {
        see(sqlite3_open(file, &db));
        run("PRAGMA page_size = " + std::to_string(page) + "; PRAGMA locking_mode = EXCLUSIVE; PRAGMA journal_mode = WAL; "
            "PRAGMA synchronous = FULL; PRAGMA foreign_keys = ON;");
        bool is_new = true;
        each("SELECT 1 FROM sqlite_schema", [&](sqlite3_stmt *) { is_new = false; });
        if (is_new) run(schema);
        for (int n = 0; n < STATEMENTS; n++) see(sqlite3_prepare_v3(db, texts[n], -1, SQLITE_PREPARE_PERSISTENT, &statements[n], nullptr));
    }
    void close() {
        for (auto s : statements) sqlite3_finalize(s);
        see(sqlite3_close(db));
    }
    bool changed() { return sqlite3_changes(db) > 0; }
    // Runs a statement with these values; each row goes to `take`.
    template <class Take, class... Values> void rows(int which, Take take, Values... values) {
        sqlite3_stmt *s = statements[which];
        int at = 0;
        (bind(s, ++at, values), ...);
        int code;
        while ((code = sqlite3_step(s)) == SQLITE_ROW) take(s);
        see(code);
        sqlite3_reset(s);
    }
    template <class... Values> void run(int which, Values... values) {
        rows(which, [](sqlite3_stmt *) {}, values...);
    }
    template <class Take> void each(const char *sql, Take take) {
        sqlite3_stmt *s;
        see(sqlite3_prepare_v2(db, sql, -1, &s, nullptr));
        int code;
        while ((code = sqlite3_step(s)) == SQLITE_ROW) take(s);
        see(code);
        sqlite3_finalize(s);
    }
};

static uint64_t whole(sqlite3_stmt *s, int at) { return sqlite3_column_int64(s, at); }
static string_view text(sqlite3_stmt *s, int at) {
    return {reinterpret_cast<const char *>(sqlite3_column_text(s, at)), size_t(sqlite3_column_bytes(s, at))};
}
static Event event_of(sqlite3_stmt *s) {
    return {Kind(whole(s, 2)), Cause(whole(s, 8)), unsigned(whole(s, 1)), whole(s, 0), whole(s, 4), whole(s, 3), whole(s, 5), whole(s, 6),
            whole(s, 7), whole(s, 9)};
}

// The texts that are told.

// Without the digit 1 that begins the number of a device or an agent.
static string digits(uint64_t n) { return std::to_string(n).substr(1); }

static const char *const kinds[] = {"", "serviceInitiated", "originated", "queued", "delivered", "diverted", "established", "held", "retrieved",
    "transferred", "failed", "connectionCleared", "callCleared", "agentLoggedOn", "agentLoggedOff", "agentNotReady", "agentReady",
    "agentBusy", "agentWorkingAfterCall"};
static const char *const causes[] = {"", "newCall", "distributed", "deflected", "transferred", "noAnswer", "busy"};

static void write_event(string &out, const Event &e) {
    out += "{";
    if (e.agent) out.append("\"agent\":\"").append(digits(e.agent)).append("\",");
    if (e.call) out.append("\"call\":").append(std::to_string(e.call)).append(",");
    if (e.cause != Cause::None) out.append("\"cause\":\"").append(causes[int(e.cause)]).append("\",");
    if (e.device) out.append("\"device\":\"").append(digits(e.device)).append("\",");
    out.append("\"event\":\"").append(kinds[int(e.kind)]).append("\",");
    if (e.group) out.append("\"group\":\"").append(digits(e.group)).append("\",");
    out.append("\"moment\":").append(std::to_string(e.moment)).append(",\"number\":").append(std::to_string(e.number));
    if (e.to) out.append(",\"to\":\"").append(digits(e.to)).append("\"");
    if (e.kind == Kind::Established && e.group) out.append(",\"waited\":").append(std::to_string(e.waited));
    out += "}";
}

// A request as it is kept: its service's members and no others, in ASCII order.
static string canonical(const Members &m) {
    static const char *const wholes[] = {"call", "invoke", "monitor", "ring", "wrap"};
    static const std::map<string_view, std::vector<const char *>> members = {
        {"addGroup", {"device", "invoke", "name", "requester", "ring", "service", "wrap"}},
        {"addStation", {"device", "invoke", "requester", "service"}},
        {"addAgent", {"agent", "invoke", "name", "requester", "service"}},
        {"arriveCall", {"called", "caller", "invoke", "requester", "service"}},
        {"answerCall", {"call", "device", "invoke", "requester", "service"}},
        {"holdCall", {"call", "device", "invoke", "requester", "service"}},
        {"retrieveCall", {"call", "device", "invoke", "requester", "service"}},
        {"clearConnection", {"call", "device", "invoke", "requester", "service"}},
        {"deflectCall", {"call", "device", "invoke", "requester", "service", "to"}},
        {"singleStepTransfer", {"call", "device", "invoke", "requester", "service", "to"}},
        {"setAgentState", {"agent", "invoke", "requested", "requester", "service"}},
        {"loggedOn", {"agent", "device", "group", "invoke", "requested", "requester", "service"}},
        {"monitorStart", {"device", "invoke", "requester", "service"}},
        {"monitorStop", {"invoke", "monitor", "requester", "service"}},
        {"tick", {"invoke", "requester", "service"}},
        {"rejectCall", {"call", "device", "invoke", "requester", "service"}},
        {"changeGroup", {"device", "invoke", "name", "requester", "ring", "service", "wrap"}},
        {"changeAgent", {"agent", "invoke", "name", "requester", "service"}},
    };
    bool on = m.text("service") == "setAgentState" && m.text("requested") == "loggedOn";
    auto it = members.find(on ? "loggedOn" : m.text("service"));
    string out;
    if (it == members.end()) return out;
    for (const char *name : it->second) {
        bool plain = false;
        for (const char *each : wholes) plain |= !strcmp(each, name);
        out.append(out.empty() ? "{\"" : ",\"").append(name).append(plain ? "\":" : "\":\"").append(m.text(name)).append(plain ? "" : "\"");
    }
    return out + "}";
}

struct Answer {
    unsigned status;
    string body;
    bool plain = false;
};
static Answer not_found() { return {404, "{\"error\":{\"code\":35,\"name\":\"notFound\"}}"}; }

class Store : Switch<Changes> {
    Database db;
    std::vector<Event> all_events;  // with --all
    std::unordered_map<string, std::pair<string, string>> all_kept;

    void read_state() {
        db.each("SELECT * FROM meta", [&](sqlite3_stmt *s) {
            stamp = whole(s, 8), moment = whole(s, 9), last_call = whole(s, 10), last_monitor = whole(s, 11), last_event = whole(s, 12);
        });
        db.each("SELECT * FROM acd_groups", [&](sqlite3_stmt *s) {
            groups[whole(s, 0)] = {string(text(s, 1)), unsigned(whole(s, 2)), unsigned(whole(s, 3)), whole(s, 4), whole(s, 5), whole(s, 6),
                                   whole(s, 7), whole(s, 8), {}, {}};
        });
        db.each("SELECT * FROM stations", [&](sqlite3_stmt *s) { stations[whole(s, 0)]; });
        db.each("SELECT * FROM calls", [&](sqlite3_stmt *s) { calls[whole(s, 0)] = {whole(s, 1), whole(s, 2), unsigned(whole(s, 3)), {}}; });
        db.each("SELECT * FROM connections ORDER BY call, device", [&](sqlite3_stmt *s) {
            Call &call = calls.at(whole(s, 0));
            Connection c = {whole(s, 1), ConnectionState(whole(s, 2)), whole(s, 3), whole(s, 4), unsigned(whole(s, 5)), unsigned(whole(s, 6))};
            call.connections.insert(c.device == call.caller ? call.connections.begin() : call.connections.end(), c);
            settle(whole(s, 0), c);
        });
        db.each("SELECT * FROM agents", [&](sqlite3_stmt *s) {
            bool waits = sqlite3_column_type(s, 3) != SQLITE_NULL;
            Agent &a = agents[whole(s, 0)] = {string(text(s, 1)), AgentState(whole(s, 2)), whole(s, 6), whole(s, 4), whole(s, 5),
                                              unsigned(whole(s, 7)), waits ? int(whole(s, 3)) : -1};
            seat(whole(s, 0), a);
        });
        db.each("SELECT * FROM monitors", [&](sqlite3_stmt *s) { monitors[whole(s, 0)] = {whole(s, 1), whole(s, 2)}; });
    }
    void check() {
        db.each("PRAGMA quick_check", [&](sqlite3_stmt *s) { if (text(s, 0) != "ok") fail("quick_check"); });
        db.each("PRAGMA foreign_key_check", [&](sqlite3_stmt *) { fail("foreign_key_check"); });
    }
    void read_all() {
        db.each("SELECT " EVENT_COLUMNS " FROM events ORDER BY number", [&](sqlite3_stmt *s) { all_events.push_back(event_of(s)); });
        db.each("SELECT requester, invoke, request, status, body FROM kept ORDER BY stamp", [&](sqlite3_stmt *s) {
            string key(text(s, 0)), reply = std::to_string(whole(s, 3));
            all_kept[key.append(" ").append(text(s, 1))] = {string(text(s, 2)), reply.append(" ").append(text(s, 4))};
        });
    }

    void write_call(uint64_t number, const std::vector<Connection> &before) {
        auto it = calls.find(number);
        if (it == calls.end()) {
            if (before.empty()) return;
            db.run(END_CONNECTIONS, number);
            return db.run(END_CALL, number);
        }
        const Call &call = it->second;
        if (before.empty()) db.run(NEW_CALL, number, call.caller, call.called, uint64_t(call.since));
        for (size_t n = 0; n < call.connections.size(); n++) {
            const Connection &c = call.connections[n];
            bool held = c.state == ConnectionState::Queued || (c.state == ConnectionState::Alerting && c.group);
            Some group(c.group), place(c.place), queued(c.queued, held), offered(c.offered, held && c.state == ConnectionState::Alerting);
            if (before.empty()) db.run(NEW_CONNECTION, number, c.device, uint64_t(c.state), group, place, queued, offered);
            else if (c != before[n]) db.run(CONNECTION, c.device, uint64_t(c.state), group, place, queued, offered, number, before[n].device);
        }
    }
    void write_agent(uint64_t number, const Agent &a) {
        Some pending(a.pending, a.pending >= 0), station(a.station), group(a.group);
        uint64_t since = a.since, state = uint64_t(a.state);
        db.run(AGENT, state, pending, station, group, a.stamp, since, number);
        if (!db.changed()) db.run(NEW_AGENT, number, string_view(a.name), a.stamp, since);
    }
    // The rows of what the request changed.
    void write_changes() {
        for (uint64_t n : notes.groups) {
            const Group &g = groups.at(n);
            db.run(GROUP, g.entered, g.answered, g.abandoned, g.moved, g.waited, n);
            if (!db.changed()) db.run(NEW_GROUP, n, string_view(g.name), uint64_t(g.ring), uint64_t(g.wrap));
        }
        for (uint64_t n : notes.changed_groups) {
            const Group &g = groups.at(n);
            db.run(CHANGED_GROUP, string_view(g.name), uint64_t(g.ring), uint64_t(g.wrap), n);
        }
        for (uint64_t n : notes.changed_agents) db.run(CHANGED_AGENT, string_view(agents.at(n).name), n);
        for (uint64_t n : notes.stations) db.run(NEW_STATION, n);
        for (uint64_t n : notes.agents) write_agent(n, agents.at(n));
        for (auto &[n, before] : notes.calls) write_call(n, before);
        for (uint64_t n : notes.monitors) {
            auto it = monitors.find(n);
            if (it == monitors.end()) db.run(END_MONITOR, n);
            else db.run(NEW_MONITOR, n, it->second.device, it->second.after);
        }
        for (const Event &e : events) {
            Some waited(e.waited, e.kind == Kind::Established && e.group);
            db.run(NEW_EVENT, e.number, uint64_t(e.moment), uint64_t(e.kind), Some(e.device), Some(e.call), Some(e.agent), Some(e.group),
                   Some(e.to), Some(uint64_t(e.cause)), waited);
        }
        db.run(META, stamp, uint64_t(moment), last_call, last_monitor, last_event);
    }

    // Executes it in the switch alone.
    Answer execute(unsigned at, const Members &m) {
        events.clear();
        notes.clear();
        const char *refusal = step(at, m);
        Answer answer = {refusal ? 409u : 200u, ""};
        write_reply(answer.body, refusal, refusal ? code(refusal) : 0, result, m.text("requester"), m.text("invoke"));
        return answer;
    }

  public:
    void open(const char *file, unsigned page, bool checks, bool reads) {
        db.open(file, page);
        if (checks) check();
        read_state();
        if (reads) read_all();
    }
    void close() { db.close(); }

    // A request, new or sent again, in one transaction.
    Answer take(unsigned at, string_view json) {
        Members m;
        string request = m.read(json) ? canonical(m) : "";
        if (request.empty()) return {400, "{\"error\":{\"code\":30,\"member\":\"json\",\"name\":\"malformed\"}}"};
        string_view requester = m.text("requester");
        uint64_t invoke = m.number("invoke");
        Answer answer = {0, ""};
        db.run(BEGIN);
        db.rows(FOUND, [&](sqlite3_stmt *s) {
            if (text(s, 0) == request) answer = {unsigned(whole(s, 1)), string(text(s, 2))};
            else answer.status = 422, write_reply(answer.body, "invokeReused", 31, "", requester, m.text("invoke"));
        }, requester, invoke);
        if (!answer.status) {
            answer = execute(at, m);
            write_changes();
            db.run(NEW_KEPT, stamp, requester, invoke, uint64_t(moment), string_view(request), uint64_t(answer.status), string_view(answer.body));
        }
        db.run(COMMIT);
        return answer;
    }

    string report(unsigned at) {
        std::map<uint64_t, const Group *> sorted;
        std::unordered_map<uint64_t, unsigned> rings;
        for (auto &[number, group] : groups) sorted[number] = &group;
        for (uint64_t number : ringing)
            for (auto &c : calls.at(number).connections)
                if (c.state == ConnectionState::Alerting) rings[c.group]++;
        string out = "group           waiting ringing    entered   answered  abandoned      moved    average    longest name\n";
        char line[256];
        for (auto &[number, g] : sorted) {
            string average = g->answered ? std::to_string(g->waited / g->answered) : "-", longest = "-";
            if (!g->waiting.empty())
                for (auto &c : calls.at(g->waiting.begin()->second).connections)
                    if (c.state == ConnectionState::Queued) longest = std::to_string(std::max(at, moment) - c.queued);
            snprintf(line, sizeof line, "%-15s %7zu %7u %10lu %10lu %10lu %10lu %10s %10s %s\n", digits(number).c_str(), g->waiting.size(),
                     rings[number], g->entered, g->answered, g->abandoned, g->moved, average.c_str(), longest.c_str(), g->name.c_str());
            out += line;
        }
        return out;
    }
    Answer page(uint64_t after, uint64_t device) {
        Answer answer = {200, "{\"events\":["};
        size_t begun = answer.body.size();
        auto take = [&](sqlite3_stmt *s) {
            if (answer.body.size() > begun) answer.body += ",";
            write_event(answer.body, event_of(s));
        };
        if (device) db.rows(MONITOR_PAGE, take, after, device);
        else db.rows(PAGE, take, after);
        answer.body.append("],\"last\":").append(std::to_string(last_event)).append("}");
        return answer;
    }
    Answer get(unsigned at, string_view target) {
        size_t mark = target.find("?after=");
        uint64_t after = mark == string_view::npos ? 0 : strtoull(target.data() + mark + 7, nullptr, 10);
        string_view path = target.substr(0, mark);
        if (path == "/reports/queues") return {200, report(at), true};
        if (path == "/events") return page(after, 0);
        if (path.starts_with("/monitors/") && path.ends_with("/events")) {
            auto it = monitors.find(strtoull(path.data() + 10, nullptr, 10));
            if (it != monitors.end()) return page(std::max(after, it->second.after), it->second.device);
        }
        return not_found();
    }

    // Runs the kept requests again, in an empty switch; the first that differs, or 0.
    uint64_t audit() {
        Store again;
        sqlite3_stmt *told = nullptr;
        uint64_t differs = 0;
        auto next = [&] { return sqlite3_step(told) == SQLITE_ROW; };
        db.each("SELECT stamp, moment, request, status, body, requester, invoke FROM kept ORDER BY stamp", [&](sqlite3_stmt *s) {
            if (differs) return;
            if (!told) {
                sqlite3 *same = sqlite3_db_handle(s);
                db.see(sqlite3_prepare_v2(same, "SELECT " EVENT_COLUMNS " FROM events ORDER BY number", -1, &told, nullptr));
            }
            Members m;
            bool sound = m.read(text(s, 2)) && canonical(m) == text(s, 2) && m.text("requester") == text(s, 5) && m.number("invoke") == whole(s, 6);
            Answer answer = again.execute(whole(s, 1), m);
            sound = sound && again.stamp == whole(s, 0) && again.moment == whole(s, 1) && answer.status == whole(s, 3) && answer.body == text(s, 4);
            for (const Event &e : again.events) sound = sound && next() && event_of(told) == e;
            if (!sound) differs = whole(s, 0);
        });
        bool more = told && !differs && next();
        sqlite3_finalize(told);
        if (differs) return differs;
        bool same = groups == again.groups && stations == again.stations && agents == again.agents && calls == again.calls
                    && monitors == again.monitors && stamp == again.stamp && moment == again.moment && last_call == again.last_call
                    && last_monitor == again.last_monitor && last_event == again.last_event;
        return same && !more ? 0 : stamp + 1;
    }
    uint64_t executed() const { return stamp; }

    // All event reports as CSV; `write` gets some lines at a time.
    template <typename Write> void export_events(Write write) {
        string out = "number,moment,event,call,device,agent,group,to,cause,waited\n";
        auto put = [&](const string &cell) { out.append(",").append(cell); };
        auto number = [](uint64_t n) { return n ? digits(n) : string(); };
        db.each("SELECT " EVENT_COLUMNS " FROM events ORDER BY number", [&](sqlite3_stmt *s) {
            Event e = event_of(s);
            out.append(std::to_string(e.number));
            put(std::to_string(e.moment));
            put(kinds[int(e.kind)]);
            put(e.call ? std::to_string(e.call) : string());
            for (uint64_t n : {e.device, e.agent, e.group, e.to}) put(number(n));
            put(causes[int(e.cause)]);
            put(sqlite3_column_type(s, 9) == SQLITE_NULL ? string() : std::to_string(e.waited));
            out += "\n";
            if (out.size() > 60000) {
                write(out);
                out.clear();
            }
        });
        write(out);
    }
};

// The commands.

static void write_whole(int to, const string &out) {
    for (size_t sent = 0; sent < out.size();) {
        ssize_t k = write(to, out.data() + sent, out.size() - sent);
        if (k < 0) fail("cannot write");
        sent += k;
    }
}

static void lines(Store &store) {
    std::vector<char> room(1 << 16);
    string out;
    size_t held = 0;
    for (ssize_t n; (n = read(0, room.data() + held, room.size() - held)) > 0;) {
        held += n;
        const char *from = room.data(), *end = from + held;
        for (const char *feed; (feed = static_cast<const char *>(memchr(from, '\n', end - from))); from = feed + 1) {
            string_view line(from, feed - from);
            size_t blank = line.find(' ');
            Answer answer = store.take(strtoul(line.data(), nullptr, 10), line.substr(blank + 1));
            out.append(std::to_string(answer.status)).append(" ").append(answer.body).append("\n");
        }
        held = end - from;
        memmove(room.data(), from, held);
        write_whole(1, out);
        out.clear();
    }
}

// Reads a request whole: where its body begins.
static size_t read_request(int from, string &request) {
    char room[16384];
    for (size_t head = string::npos, length = 0;;) {
        ssize_t n = read(from, room, sizeof room);
        if (n <= 0) return string::npos;
        request.append(room, n);
        if (head == string::npos && (head = request.find("\r\n\r\n")) != string::npos) {
            size_t field = request.find("Content-Length: ");
            length = field < head ? strtoul(request.c_str() + field + 16, nullptr, 10) : 0;
        }
        if (head != string::npos && request.size() >= head + 4 + length) return head + 4;
    }
}

static string replied(Store &store, const string &request, size_t body) {
    Answer answer = not_found();
    string_view whole = request;
    if (whole.starts_with("GET ")) answer = store.get(time(nullptr), whole.substr(4, whole.find(' ', 4) - 4));
    else if (whole.starts_with("POST /csta ")) answer = store.take(time(nullptr), whole.substr(body));
    static const std::map<unsigned, const char *> phrases = {
        {200, "OK"}, {400, "Bad Request"}, {404, "Not Found"}, {409, "Conflict"}, {422, "Unprocessable Entity"}};
    string out = "HTTP/1.1 ";
    out.append(std::to_string(answer.status)).append(" ").append(phrases.at(answer.status)).append("\r\nContent-Type: ");
    out.append(answer.plain ? "text/plain" : "application/json").append("\r\nContent-Length: ").append(std::to_string(answer.body.size()));
    return out.append("\r\nConnection: close\r\n\r\n").append(answer.body);
}

static void serve(Store &store, int port, long connections) {
    sockaddr_in address = {};
    address.sin_family = AF_INET, address.sin_port = htons(port), address.sin_addr.s_addr = htonl(INADDR_LOOPBACK);
    int listener = socket(AF_INET, SOCK_STREAM, 0), one = 1;
    setsockopt(listener, SOL_SOCKET, SO_REUSEADDR, &one, sizeof one);
    if (bind(listener, reinterpret_cast<sockaddr *>(&address), sizeof address) || listen(listener, 128)) fail("cannot listen");
    printf("listening on 127.0.0.1:%d\n", port);
    fflush(stdout);
    for (; connections > 0; connections--) {
        int fd = accept(listener, nullptr, nullptr);
        string request;
        size_t body = fd < 0 ? string::npos : read_request(fd, request);
        if (body != string::npos) write_whole(fd, replied(store, request, body));
        close(fd);
    }
}

static void import(Store &store, const char *plan) {
    std::ifstream in(plan);
    string row, out;
    if (!std::getline(in, row) || row != "kind,number,name,ring,wrap") fail("plan header");
    for (unsigned invoke = 1; std::getline(in, row); invoke++) {
        std::array<string, 5> field;
        size_t from = 0;
        for (string &each : field) {
            size_t comma = std::min(row.find(',', from), row.size());
            each = row.substr(std::min(from, row.size()), comma - std::min(from, row.size()));
            from = comma + 1;
        }
        auto &[kind, number, name, ring, wrap] = field;
        string json = "{\"requester\":\"plan\",\"invoke\":" + std::to_string(invoke);
        if (kind == "group")
            json += ",\"service\":\"addGroup\",\"device\":\"" + number + "\",\"name\":\"" + name + "\",\"ring\":" + ring + ",\"wrap\":" + wrap + "}";
        else if (kind == "station") json += ",\"service\":\"addStation\",\"device\":\"" + number + "\"}";
        else json += ",\"service\":\"addAgent\",\"agent\":\"" + number + "\",\"name\":\"" + name + "\"}";
        Answer answer = store.take(0, json);
        out.append(std::to_string(answer.status)).append(" ").append(answer.body).append("\n");
    }
    write_whole(1, out);
}

int main(int argc, char **argv) {
    std::map<string, const char *> words;
    bool checks = false, reads = false, counts = false;
    for (int n = 2; n < argc; n++) {
        string word = argv[n];
        if (word == "--check") checks = true;
        else if (word == "--all") reads = true;
        else if (word == "--count") counts = true;
        else if (n + 1 < argc) words[word] = argv[++n];
    }
    string command = argc > 1 ? argv[1] : "";
    if (!words.count("--file")) fail("a command and --file F are needed");
    Store store;
    store.open(words["--file"], words.count("--page") ? atoi(words["--page"]) : 1024, checks, reads);
    if (command == "lines") lines(store);
    else if (command == "serve") serve(store, atoi(words["--port"]), atol(words["--connections"]));
    else if (command == "import") import(store, words["--plan"]);
    else if (command == "report") write_whole(1, store.report(0));
    else if (command == "export") store.export_events([](const string &out) { write_whole(1, out); });
    else if (command == "audit") {
        uint64_t differs = store.audit();
        if (differs) printf("differs at request %lu\n", differs);
        else puts("sound");
        if (!differs && counts) printf("executed %lu\n", store.executed());
        if (differs) return 3;
    } else fail("no such command");
    store.close();
    return 0;
}
