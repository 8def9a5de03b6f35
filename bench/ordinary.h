// The switch that the ordinary programs share (ordinary_desk.cc over memory, ordinary_store.cc over libsqlite3): the services that the
// loads of bench/busy.py and the course of bench/course.py ask for, over the C++ library's maps and sets, with a small reader of flat JSON.
// It proves nothing and refuses little, and no agent serves several groups. The store knows neither makeCall nor priorities.
#pragma once
#include <array>
#include <cstdint>
#include <cstring>
#include <map>
#include <set>
#include <string>
#include <string_view>
#include <unordered_map>
#include <utility>
#include <vector>

using std::string, std::string_view, std::uint64_t;

// The numbers are those of the desk's file.
enum class AgentState { Null, NotReady, Ready, Busy, WorkingAfterCall };
enum class ConnectionState { Initiated = 1, Alerting, Connected, Hold, Queued, Fail };
enum class Kind {
    None, ServiceInitiated, Originated, Queued, Delivered, Diverted, Established, Held, Retrieved, Transferred, Failed,
    ConnectionCleared, CallCleared, AgentLoggedOn, AgentLoggedOff, AgentNotReady, AgentReady, AgentBusy, AgentWorkingAfterCall
};
enum class Cause { None, NewCall, Distributed, Deflected, Transferred, NoAnswer, Busy };

static const char *const state_names[] = {"null", "notReady", "ready", "busy", "workingAfterCall"};

struct Connection {
    uint64_t device;
    ConnectionState state;
    uint64_t group = 0, place = 0;
    unsigned queued = 0, offered = 0;
    bool operator==(const Connection &) const = default;
};
struct Call {
    uint64_t caller, called;
    unsigned since;
    std::vector<Connection> connections;
    bool operator==(const Call &) const = default;
};
struct Agent {
    string name;
    AgentState state = AgentState::Null;
    uint64_t stamp = 0, station = 0, group = 0;
    unsigned since = 0;
    int pending = -1;
    bool operator==(const Agent &) const = default;
};
struct Group {
    string name;
    unsigned ring, wrap;
    uint64_t entered = 0, answered = 0, abandoned = 0, moved = 0, waited = 0;
    std::set<std::pair<uint64_t, uint64_t>> waiting, ready;  // place and call, stamp and agent
    unsigned priority = 0;
    bool operator==(const Group &) const = default;
};
struct Station {
    uint64_t agent = 0;
    std::set<uint64_t> calls;  // those that occupy it
    bool operator==(const Station &) const = default;
};
struct Monitor {
    uint64_t device, after;
    bool operator==(const Monitor &) const = default;
};
struct Event {
    Kind kind;
    Cause cause;
    unsigned moment;
    uint64_t number, call, device, agent, group, to, waited;
    bool operator==(const Event &) const = default;
};

// The members of a flat object, as texts.
class Members {
    std::array<std::pair<string_view, string_view>, 16> at;
    size_t count = 0;

  public:
    bool read(string_view text) {
        const char *p = text.data(), *end = p + text.size();
        auto skip = [&] { while (p < end && (*p == ' ' || *p == '\t')) p++; };
        auto quoted = [&](string_view &into) {
            const char *from = ++p;
            while (p < end && *p != '"' && *p != '\\') p++;
            if (p == end || *p == '\\') return false;
            into = string_view(from, p++ - from);
            return true;
        };
        skip();
        if (p == end || *p++ != '{') return false;
        for (skip(); p < end && *p == '"'; skip()) {
            string_view name, value;
            if (count == at.size() || !quoted(name)) return false;
            skip();
            if (p == end || *p++ != ':') return false;
            skip();
            if (p < end && *p == '"') {
                if (!quoted(value)) return false;
            } else {
                const char *from = p;
                while (p < end && *p >= '0' && *p <= '9') p++;
                value = string_view(from, p - from);
                if (value.empty()) return false;
            }
            at[count++] = {name, value};
            skip();
            if (p < end && *p == ',') p++;
        }
        return p < end && *p == '}';
    }
    string_view text(string_view name) const {
        for (size_t i = count; i-- > 0;)
            if (at[i].first == name) return at[i].second;
        return {};
    }
    uint64_t number(string_view name) const {
        uint64_t n = 0;
        for (char c : text(name)) n = n * 10 + (c - '0');
        return n;
    }
    // The digit 1 and the digits.
    uint64_t digits(string_view name) const {
        uint64_t n = 1;
        for (char c : text(name)) n = n * 10 + (c - '0');
        return n;
    }
};

// What changes is told to such notes: a call before it changes, all else behind it. Over memory nobody asks.
struct NoNotes {
    void group(uint64_t) {}
    void station(uint64_t) {}
    void agent(uint64_t) {}
    void call(uint64_t, const Call *) {}
    void monitor(uint64_t) {}
    void changed_group(uint64_t) {}
    void changed_agent(uint64_t) {}
};

template <class Notes> class Switch {
  public:
    std::unordered_map<uint64_t, Group> groups;
    std::unordered_map<uint64_t, Station> stations;
    std::unordered_map<uint64_t, Agent> agents;
    std::unordered_map<uint64_t, Call> calls;
    std::unordered_map<uint64_t, Monitor> monitors;
    std::set<std::pair<int, uint64_t>> open;    // groups that may have an offer, by priority from the highest, and number
    std::set<uint64_t> ringing, working;        // calls that ring, agents in after-call work
    std::vector<Event> events;                  // all, or those of the last request where it was cleared before
    uint64_t stamp = 0, last_call = 0, last_event = 0, last_monitor = 0;
    unsigned moment = 0;
    string result;
    Notes notes;

    // A new request at this moment: its refusal, or nullptr with its result.
    const char *step(unsigned at, const Members &m) {
        stamp++;
        if (at > moment) moment = at;
        const char *refusal = serve(m);
        if (!refusal) distribute();
        return refusal;
    }
    // Notes where the agent of a record that was read is found: at the station, among the ready ones, at work.
    void seat(uint64_t number, Agent &a) {
        if (a.station) stations.at(a.station).agent = number;
        if (a.state == AgentState::WorkingAfterCall) working.insert(number);
        list_if_free(number, a);
    }
    void settle(uint64_t number, const Connection &c) {
        if (c.state == ConnectionState::Queued) groups.at(c.device).waiting.insert({c.place, number});
        if (c.state == ConnectionState::Alerting && c.group) ringing.insert(number);
        auto it = stations.find(c.device);
        if (it != stations.end() && c.state != ConnectionState::Fail) it->second.calls.insert(number);
    }

  private:
    void report(Kind kind, uint64_t call, uint64_t device, uint64_t agent = 0, uint64_t group = 0, uint64_t to = 0,
                Cause cause = Cause::None, uint64_t waited = 0) {
        events.push_back({kind, cause, moment, ++last_event, call, device, agent, group, to, waited});
    }
    bool planned(uint64_t device) const { return groups.count(device) || stations.count(device); }
    bool is_free(const Agent &a) const { return stations.at(a.station).calls.empty(); }
    void may_offer(uint64_t number, const Group &g) { open.insert({-int(g.priority), number}); }
    void list_if_free(uint64_t number, Agent &a) {
        if (a.state != AgentState::Ready || !is_free(a)) return;
        Group &g = groups.at(a.group);
        g.ready.insert({a.stamp, number});
        may_offer(a.group, g);
    }
    void become(uint64_t number, Agent &a, AgentState state) {
        if (a.state == AgentState::Ready) groups.at(a.group).ready.erase({a.stamp, number});
        if (a.state == AgentState::WorkingAfterCall) working.erase(number);
        a.state = state, a.stamp = stamp, a.since = moment, a.pending = -1;
        if (state == AgentState::WorkingAfterCall) working.insert(number);
        report(Kind(int(Kind::AgentLoggedOff) + int(state)), 0, a.station, number);
        if (state == AgentState::Null) stations.at(a.station).agent = 0, a.station = a.group = 0;
        else list_if_free(number, a);
        notes.agent(number);
    }
    Connection *found(uint64_t call, uint64_t device) {
        auto it = calls.find(call);
        if (it == calls.end()) return nullptr;
        for (auto &c : it->second.connections)
            if (c.device == device) return &c;
        return nullptr;
    }
    // The connection of that call and device, to be changed; or a refusal.
    const char *taken(const Members &m, Connection *&c, uint64_t &number) {
        number = m.number("call");
        if (!(c = found(number, m.digits("device")))) return calls.count(number) ? "unknownConnection" : "unknownCall";
        return nullptr;
    }
    bool occupied(const Agent &a) {
        for (uint64_t call : stations.at(a.station).calls)
            if (found(call, a.station)->group) return true;
        return false;
    }
    void enter(uint64_t number, Connection &c, Cause cause) {
        Group &g = groups.at(c.device);
        c.state = ConnectionState::Queued;
        g.waiting.insert({c.place, number});
        may_offer(c.device, g);
        report(Kind::Queued, number, c.device, 0, 0, 0, cause);
    }
    // The call comes to its destination.
    void arrive(uint64_t number, Connection &c, uint64_t device, Cause cause) {
        if (groups.count(device)) {
            c = {device, ConnectionState::Queued, device, stamp, moment};
            groups.at(device).entered++;
            notes.group(device);
            return enter(number, c, cause);
        }
        Station &s = stations.at(device);
        c = {device, s.calls.empty() ? ConnectionState::Alerting : ConnectionState::Fail};
        if (c.state == ConnectionState::Fail) return report(Kind::Failed, number, device, 0, 0, 0, Cause::Busy);
        occupy(number, s);
        report(Kind::Delivered, number, device, 0, 0, 0, cause);
    }
    // A call that nobody distributed is at the station, whose agent takes no offer.
    void occupy(uint64_t number, Station &s) {
        s.calls.insert(number);
        if (s.agent) groups.at(agents.at(s.agent).group).ready.erase({agents.at(s.agent).stamp, s.agent});
    }
    // The end of a connection at a station: its agent is released.
    void leave(uint64_t call, const Connection &c, bool tick = false) {
        auto it = stations.find(c.device);
        if (it == stations.end()) return;
        it->second.calls.erase(call);
        uint64_t number = it->second.agent;
        if (!number) return;
        Agent &a = agents.at(number);
        if (!c.group) return list_if_free(number, a);
        if (c.state == ConnectionState::Alerting) ringing.erase(call);
        if (tick) become(number, a, a.pending >= 0 && a.pending != int(AgentState::Ready) ? AgentState(a.pending) : AgentState::NotReady);
        else if (c.state == ConnectionState::Alerting && (a.pending < 0 || a.pending == int(AgentState::Ready))) {
            if (a.pending >= 0) a.pending = -1, notes.agent(number);
            list_if_free(number, a);
        } else become(number, a, a.pending >= 0 ? AgentState(a.pending) : AgentState::WorkingAfterCall);
    }
    void distribute() {
        while (!open.empty()) {
            uint64_t number = open.begin()->second;
            Group &g = groups.at(number);
            if (g.waiting.empty() || g.ready.empty()) {
                open.erase(open.begin());
                continue;
            }
            uint64_t call = g.waiting.begin()->second, agent = g.ready.begin()->second;
            notes.call(call, &calls.at(call));
            g.waiting.erase(g.waiting.begin());
            g.ready.erase(g.ready.begin());
            Connection &c = *found(call, number);
            c.device = agents.at(agent).station;
            c.state = ConnectionState::Alerting;
            c.offered = moment;
            stations.at(c.device).calls.insert(call);
            ringing.insert(call);
            report(Kind::Diverted, call, number, 0, number, c.device, Cause::Distributed);
            report(Kind::Delivered, call, c.device, 0, number, 0, Cause::Distributed);
        }
    }

    const char *add_group(const Members &m) {
        uint64_t device = m.digits("device");
        if (planned(device)) return "deviceExists";
        Group &g = groups[device];
        g.name = m.text("name"), g.ring = m.number("ring"), g.wrap = m.number("wrap");
        notes.group(device);
        return nullptr;
    }
    const char *add_station(const Members &m) {
        uint64_t device = m.digits("device");
        if (planned(device)) return "deviceExists";
        stations[device];
        notes.station(device);
        return nullptr;
    }
    const char *add_agent(const Members &m) {
        uint64_t number = m.digits("agent");
        if (agents.count(number)) return "agentExists";
        Agent &a = agents[number];
        a.name = m.text("name"), a.stamp = stamp, a.since = moment;
        notes.agent(number);
        return nullptr;
    }
    const char *arrive_call(const Members &m) {
        uint64_t caller = m.digits("caller"), called = m.digits("called");
        if (planned(caller)) return "callerPlanned";
        if (!planned(called)) return "unknownDevice";
        if (calls.size() >= 2000) return "tooManyCalls";
        notes.call(++last_call, nullptr);
        Call &call = calls[last_call];
        call = {caller, called, moment, {{caller, ConnectionState::Connected}, {called, ConnectionState::Queued}}};
        arrive(last_call, call.connections[1], called, Cause::NewCall);
        result = "{\"call\":" + std::to_string(last_call) + "}";
        return nullptr;
    }
    const char *make_call(const Members &m) {
        uint64_t device = m.digits("device"), called = m.digits("called");
        auto it = stations.find(device);
        if (it == stations.end()) return planned(device) ? "notStation" : "unknownDevice";
        if (!planned(called)) return "unknownDevice";
        if (called == device) return "sameDevice";
        for (uint64_t call : it->second.calls)
            if (found(call, device)->state != ConnectionState::Hold) return "stationBusy";
        if (calls.size() >= 2000) return "tooManyCalls";
        notes.call(++last_call, nullptr);
        calls[last_call] = {device, called, moment, {{device, ConnectionState::Initiated}}};
        occupy(last_call, it->second);
        report(Kind::ServiceInitiated, last_call, device);
        result = "{\"call\":" + std::to_string(last_call) + "}";
        return nullptr;
    }
    const char *phone_off_hook(const Members &m) {
        uint64_t number;
        Connection *c;
        if (const char *refusal = taken(m, c, number)) return refusal;
        if (c->state != ConnectionState::Initiated) return "wrongConnectionState";
        Call &call = calls.at(number);
        notes.call(number, &call);
        c->state = ConnectionState::Connected;
        report(Kind::Originated, number, c->device, 0, 0, call.called);
        call.connections.push_back({call.called, ConnectionState::Fail});
        arrive(number, call.connections.back(), call.called, Cause::NewCall);
        return nullptr;
    }
    const char *set_group_priority(const Members &m) {
        uint64_t device = m.digits("device");
        auto it = groups.find(device);
        if (it == groups.end()) return planned(device) ? "notGroup" : "unknownDevice";
        bool offers = open.erase({-int(it->second.priority), device});
        it->second.priority = m.number("priority");
        if (offers) may_offer(device, it->second);
        notes.group(device);
        return nullptr;
    }
    const char *change_group(const Members &m) {
        uint64_t device = m.digits("device");
        auto it = groups.find(device);
        if (it == groups.end()) return planned(device) ? "notGroup" : "unknownDevice";
        it->second.name = m.text("name"), it->second.ring = m.number("ring"), it->second.wrap = m.number("wrap");
        notes.changed_group(device);
        return nullptr;
    }
    const char *change_agent(const Members &m) {
        uint64_t number = m.digits("agent");
        auto it = agents.find(number);
        if (it == agents.end()) return "unknownAgent";
        it->second.name = m.text("name");
        notes.changed_agent(number);
        return nullptr;
    }
    const char *answer_call(const Members &m) {
        uint64_t number;
        Connection *c;
        if (const char *refusal = taken(m, c, number)) return refusal;
        if (c->state != ConnectionState::Alerting) return "wrongConnectionState";
        notes.call(number, &calls.at(number));
        c->state = ConnectionState::Connected;
        if (!c->group) return report(Kind::Established, number, c->device), nullptr;
        ringing.erase(number);
        Group &g = groups.at(c->group);
        unsigned waited = moment - c->queued;
        g.answered++, g.waited += waited;
        notes.group(c->group);
        c->place = 0, c->queued = c->offered = 0;
        report(Kind::Established, number, c->device, 0, c->group, 0, Cause::None, waited);
        uint64_t agent = stations.at(c->device).agent;
        Agent &a = agents.at(agent);
        int pending = a.pending;
        become(agent, a, AgentState::Busy);
        a.pending = pending;
        return nullptr;
    }
    const char *hold_or_retrieve(const Members &m, ConnectionState from, ConnectionState to, Kind event) {
        uint64_t number;
        Connection *c;
        if (const char *refusal = taken(m, c, number)) return refusal;
        if (from == ConnectionState::Connected && !stations.count(c->device)) return "notStation";
        if (c->state != from) return "wrongConnectionState";
        notes.call(number, &calls.at(number));
        c->state = to;
        report(event, number, c->device);
        return nullptr;
    }
    const char *clear_connection(const Members &m) {
        uint64_t number = m.number("call"), device = m.digits("device"), group = 0;
        if (!found(number, device)) return calls.count(number) ? "unknownConnection" : "unknownCall";
        notes.call(number, &calls.at(number));
        Call call = std::move(calls.at(number));
        calls.erase(number);
        if (call.connections[0].device != device) std::swap(call.connections.front(), call.connections.back());
        for (auto &c : call.connections) {
            report(Kind::ConnectionCleared, number, c.device);
            if (c.state == ConnectionState::Queued) groups.at(c.device).waiting.erase({c.place, number});
            if (c.state == ConnectionState::Queued || c.state == ConnectionState::Alerting) group = c.group;
        }
        if (group) groups.at(group).abandoned++, notes.group(group);
        report(Kind::CallCleared, number, 0, 0, group);
        for (auto &c : call.connections) leave(number, c);
        return nullptr;
    }
    const char *destination(uint64_t number, uint64_t to) {
        if (!planned(to)) return "unknownDevice";
        if (found(number, to)) return "sameDevice";
        if (stations.count(to) && !stations.at(to).calls.empty()) return "destinationBusy";
        return nullptr;
    }
    const char *deflect_call(const Members &m) {
        uint64_t number, to = m.digits("to");
        Connection *c;
        if (const char *refusal = taken(m, c, number)) return refusal;
        if (c->state != ConnectionState::Alerting && c->state != ConnectionState::Queued) return "wrongConnectionState";
        if (const char *refusal = destination(number, to)) return refusal;
        notes.call(number, &calls.at(number));
        Connection old = *c;
        if (old.state == ConnectionState::Queued) groups.at(old.device).waiting.erase({old.place, number});
        report(Kind::Diverted, number, old.device, 0, old.group, to, Cause::Deflected);
        if (old.group) groups.at(old.group).moved++, notes.group(old.group);
        arrive(number, *c, to, Cause::Deflected);
        leave(number, old);
        return nullptr;
    }
    const char *transfer_call(const Members &m) {
        uint64_t number, to = m.digits("to");
        Connection *c;
        if (const char *refusal = taken(m, c, number)) return refusal;
        if (!stations.count(c->device)) return "notStation";
        for (auto &each : calls.at(number).connections)
            if (each.state != ConnectionState::Connected && (&each == c || each.state != ConnectionState::Hold)) return "wrongConnectionState";
        if (const char *refusal = destination(number, to)) return refusal;
        notes.call(number, &calls.at(number));
        Connection old = *c;
        report(Kind::Transferred, number, old.device, 0, 0, to);
        arrive(number, *c, to, Cause::Transferred);
        leave(number, old);
        return nullptr;
    }
    const char *log_on(const Members &m, uint64_t number, Agent &a) {
        uint64_t device = m.digits("device"), group = m.digits("group");
        if (!stations.count(device)) return planned(device) ? "notStation" : "unknownDevice";
        if (stations.at(device).agent) return "stationTaken";
        if (!groups.count(group)) return planned(group) ? "notGroup" : "unknownDevice";
        stations.at(device).agent = number;
        a.station = device, a.group = group;
        a.state = AgentState::NotReady, a.stamp = stamp, a.since = moment;
        report(Kind::AgentLoggedOn, 0, device, number, group);
        notes.agent(number);
        result = "{\"state\":\"notReady\"}";
        return nullptr;
    }
    const char *set_agent_state(const Members &m) {
        uint64_t number = m.digits("agent");
        auto it = agents.find(number);
        if (it == agents.end()) return "unknownAgent";
        Agent &a = it->second;
        string_view wanted = m.text("requested");
        if ((a.state == AgentState::Null) != (wanted == "loggedOn")) return "wrongAgentState";
        if (wanted == "loggedOn") return log_on(m, number, a);
        AgentState state = wanted == "ready"      ? AgentState::Ready
                           : wanted == "notReady" ? AgentState::NotReady
                           : wanted == "loggedOff" ? AgentState::Null : AgentState::WorkingAfterCall;
        result = "{";
        if (occupied(a)) {
            a.pending = int(state);
            notes.agent(number);
            result.append("\"pending\":\"").append(wanted).append("\",");
        } else if (a.state != state) become(number, a, state);
        result.append("\"state\":\"").append(state_names[int(a.state)]).append("\"}");
        return nullptr;
    }
    // An offered call goes back to its place in its group's queue.
    void take_back(uint64_t number, Connection &c) {
        notes.call(number, &calls.at(number));
        Connection old = c;
        report(Kind::Diverted, number, old.device, 0, old.group, old.group, Cause::NoAnswer);
        c.device = c.group, c.offered = 0;
        enter(number, c, Cause::NoAnswer);
        leave(number, old, true);
    }
    const char *reject_call(const Members &m) {
        uint64_t number;
        Connection *c;
        if (const char *refusal = taken(m, c, number)) return refusal;
        if (c->state != ConnectionState::Alerting || !c->group) return "wrongConnectionState";
        take_back(number, *c);
        return nullptr;
    }
    const char *tick() {
        std::vector<uint64_t> late, done;
        for (uint64_t number : ringing)
            for (auto &c : calls.at(number).connections)
                if (c.state == ConnectionState::Alerting)
                    if (unsigned ring = groups.at(c.group).ring; ring && moment - c.offered >= ring) late.push_back(number);
        for (uint64_t number : late)
            for (auto &c : calls.at(number).connections)
                if (c.state == ConnectionState::Alerting) take_back(number, c);
        for (uint64_t number : working) {
            const Agent &a = agents.at(number);
            if (unsigned wrap = groups.at(a.group).wrap; wrap && moment - a.since >= wrap) done.push_back(number);
        }
        for (uint64_t number : done) become(number, agents.at(number), AgentState::Ready);
        return nullptr;
    }
    const char *monitor(const Members &m, bool start) {
        uint64_t number = start ? last_monitor + 1 : m.number("monitor"), device = start ? m.digits("device") : 0;
        if (start && !planned(device)) return "unknownDevice";
        if (start && monitors.size() >= 256) return "planFull";
        if (!start && !monitors.erase(number)) return "unknownMonitor";
        if (start) {
            monitors[last_monitor = number] = {device, last_event};
            result = "{\"monitor\":" + std::to_string(number) + "}";
        }
        notes.monitor(number);
        return nullptr;
    }
    const char *serve(const Members &m) {
        string_view service = m.text("service");
        result = "{}";
        if (service == "arriveCall") return arrive_call(m);
        if (service == "answerCall") return answer_call(m);
        if (service == "holdCall") return hold_or_retrieve(m, ConnectionState::Connected, ConnectionState::Hold, Kind::Held);
        if (service == "retrieveCall") return hold_or_retrieve(m, ConnectionState::Hold, ConnectionState::Connected, Kind::Retrieved);
        if (service == "clearConnection") return clear_connection(m);
        if (service == "setAgentState") return set_agent_state(m);
        if (service == "tick") return tick();
        if (service == "deflectCall") return deflect_call(m);
        if (service == "singleStepTransfer") return transfer_call(m);
        if (service == "addGroup") return add_group(m);
        if (service == "addStation") return add_station(m);
        if (service == "addAgent") return add_agent(m);
        if (service == "makeCall") return make_call(m);
        if (service == "phoneOffHook") return phone_off_hook(m);
        if (service == "setGroupPriority") return set_group_priority(m);
        if (service == "rejectCall") return reject_call(m);
        if (service == "changeGroup") return change_group(m);
        if (service == "changeAgent") return change_agent(m);
        if (service == "monitorStart" || service == "monitorStop") return monitor(m, service == "monitorStart");
        return "unknownService";
    }
};

// The code of a refusal.
inline unsigned code(string_view refusal) {
    static const char *const names[] = {"", "unknownDevice", "unknownAgent", "unknownCall", "unknownConnection", "wrongConnectionState",
        "wrongAgentState", "deviceExists", "agentExists", "notStation", "notGroup", "destinationBusy", "sameDevice", "stationTaken",
        "stationBusy", "tooManyCalls", "planFull", "unknownMonitor", "callerPlanned"};
    for (unsigned n = 1; n < 19; n++)
        if (refusal == names[n]) return n;
    return 0;
}

// The body of a reply: of a refusal, or of a result where there is none.
inline void write_reply(string &out, const char *refusal, unsigned refused, string_view result, string_view requester, string_view invoke) {
    if (refusal) out.append("{\"error\":{\"code\":").append(std::to_string(refused)).append(",\"name\":\"").append(refusal).append("\"},");
    else out.append("{");
    out.append("\"invoke\":").append(invoke).append(",\"requester\":\"").append(requester).append("\"");
    if (!refusal) out.append(",\"result\":").append(result);
    out.append("}");
}
