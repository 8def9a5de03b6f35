/* What the statements of a request cost an ordinary program over libsqlite3: the tables of a book, a full plan in them, prepared
   statements, one transaction a request. No request is read, no rule is looked at and nothing is answered.

   cc -O2 -o ordinary bench/ordinary.c -lsqlite3
   ./ordinary FILE COUNT [PAGE]

   prints the microseconds of a request of twelve changes (an old call goes, and a new one comes and is offered at once) and of an answerCall,
   the means of COUNT requests each. FILE is made anew, with pages of PAGE bytes, 4096 where none is said. */
#include <sqlite3.h>
#include <stdio.h>
#include <stdlib.h>
#include <time.h>
#include <unistd.h>

enum { GROUPS = 64, STATIONS = 1000, CALLS = 1800 };

static const char *const schema =
    "PRAGMA journal_mode = WAL; PRAGMA synchronous = FULL; PRAGMA foreign_keys = ON;"
    "CREATE TABLE meta (id INTEGER NOT NULL PRIMARY KEY CHECK (id = 1), version INTEGER NOT NULL, max_requests INTEGER NOT NULL, max_calls INTEGER NOT NULL, max_groups INTEGER NOT NULL, max_stations INTEGER NOT NULL, max_agents INTEGER NOT NULL, max_monitors INTEGER NOT NULL, last_stamp INTEGER NOT NULL, last_moment INTEGER NOT NULL, last_call INTEGER NOT NULL, last_monitor INTEGER NOT NULL, last_event INTEGER NOT NULL) STRICT;"
    "CREATE TABLE acd_groups (device INTEGER NOT NULL PRIMARY KEY, name TEXT NOT NULL, ring INTEGER NOT NULL, wrap INTEGER NOT NULL, entered INTEGER NOT NULL, answered INTEGER NOT NULL, abandoned INTEGER NOT NULL, moved INTEGER NOT NULL, waited INTEGER NOT NULL) STRICT;"
    "CREATE TABLE stations (device INTEGER NOT NULL PRIMARY KEY) STRICT;"
    "CREATE TABLE agents (agent INTEGER NOT NULL PRIMARY KEY, name TEXT NOT NULL, state INTEGER NOT NULL CHECK (state BETWEEN 0 AND 4), pending INTEGER, station INTEGER UNIQUE REFERENCES stations, grp INTEGER REFERENCES acd_groups, stamp INTEGER NOT NULL, since INTEGER NOT NULL) STRICT;"
    "CREATE TABLE calls (call INTEGER NOT NULL PRIMARY KEY, caller INTEGER NOT NULL, called INTEGER NOT NULL, since INTEGER NOT NULL) STRICT;"
    "CREATE TABLE connections (call INTEGER NOT NULL REFERENCES calls, device INTEGER NOT NULL, state INTEGER NOT NULL CHECK (state BETWEEN 1 AND 6), grp INTEGER REFERENCES acd_groups, place INTEGER, queued INTEGER, offered INTEGER, PRIMARY KEY (call, device)) STRICT;"
    "CREATE TABLE events (number INTEGER NOT NULL PRIMARY KEY, moment INTEGER NOT NULL, kind INTEGER NOT NULL CHECK (kind BETWEEN 1 AND 18), device INTEGER, call INTEGER, agent INTEGER, grp INTEGER, target INTEGER, cause INTEGER, waited INTEGER) STRICT;"
    "CREATE TABLE kept (stamp INTEGER NOT NULL PRIMARY KEY, requester TEXT NOT NULL, invoke INTEGER NOT NULL, moment INTEGER NOT NULL, request TEXT NOT NULL, status INTEGER NOT NULL, body TEXT NOT NULL, UNIQUE (requester, invoke)) STRICT;";

enum { GROUP, STATION, AGENT, CALL, CONNECTION, EVENT, KEPT, META, NO_CALL, NO_CONNECTION, BEGIN, COMMIT, STATEMENTS };

static const char *const texts[STATEMENTS] = {
    "INSERT INTO acd_groups VALUES (?1, 'A group of the plan', 20, 30, ?2, ?2, 0, 0, ?2) ON CONFLICT (device) DO UPDATE SET name = excluded.name, ring = excluded.ring, wrap = excluded.wrap, entered = excluded.entered, answered = excluded.answered, abandoned = excluded.abandoned, moved = excluded.moved, waited = excluded.waited",
    "INSERT INTO stations VALUES (?1)",
    "INSERT INTO agents VALUES (?1, 'An agent of the plan', ?2, NULL, ?3, ?4, ?5, ?5) ON CONFLICT (agent) DO UPDATE SET name = excluded.name, state = excluded.state, pending = excluded.pending, station = excluded.station, grp = excluded.grp, stamp = excluded.stamp, since = excluded.since",
    "INSERT INTO calls VALUES (?1, ?2, ?3, ?4) ON CONFLICT (call) DO UPDATE SET caller = excluded.caller, called = excluded.called, since = excluded.since",
    "INSERT INTO connections VALUES (?1, ?2, ?3, ?4, ?5, ?5, ?5) ON CONFLICT (call, device) DO UPDATE SET state = excluded.state, grp = excluded.grp, place = excluded.place, queued = excluded.queued, offered = excluded.offered",
    "INSERT INTO events VALUES (?1, ?2, ?3, ?4, ?5, NULL, ?6, NULL, 1, NULL)",
    "INSERT INTO kept VALUES (?1, 'exchange', ?1, ?2, '{\"called\":\"1001\",\"caller\":\"0301234567\",\"invoke\":123456,\"requester\":\"exchange\",\"service\":\"arriveCall\"}', 200, '{\"invoke\":123456,\"requester\":\"exchange\",\"result\":{\"call\":123456}}')",
    "INSERT INTO meta VALUES (1, 1, 1000000, 2000, 64, 1000, 1000, 100, ?1, ?2, ?3, 0, ?4) ON CONFLICT (id) DO UPDATE SET version = excluded.version, max_requests = excluded.max_requests, max_calls = excluded.max_calls, max_groups = excluded.max_groups, max_stations = excluded.max_stations, max_agents = excluded.max_agents, max_monitors = excluded.max_monitors, last_stamp = excluded.last_stamp, last_moment = excluded.last_moment, last_call = excluded.last_call, last_monitor = excluded.last_monitor, last_event = excluded.last_event",
    "DELETE FROM calls WHERE call = ?1",
    "DELETE FROM connections WHERE call = ?1 AND device = ?2",
    "BEGIN IMMEDIATE",
    "COMMIT",
};

static sqlite3 *db;
static sqlite3_stmt *statements[STATEMENTS];
static sqlite3_int64 stamp, event, call;

static void check(int ok) {
    if (!ok) {
        fprintf(stderr, "ordinary: %s\n", db ? sqlite3_errmsg(db) : "no database");
        exit(1);
    }
}

/* Runs a statement with these numbers; a negative one is NULL. */
static void run(int at, int count, const sqlite3_int64 *numbers) {
    sqlite3_stmt *s = statements[at];
    for (int i = 0; i < count; i++)
        check((numbers[i] < 0 ? sqlite3_bind_null(s, i + 1) : sqlite3_bind_int64(s, i + 1, numbers[i])) == SQLITE_OK);
    check(sqlite3_step(s) == SQLITE_DONE);
    sqlite3_reset(s);
}
#define RUN(at, ...) run(at, sizeof((sqlite3_int64[]){__VA_ARGS__}) / sizeof(sqlite3_int64), (sqlite3_int64[]){__VA_ARGS__})

static sqlite3_int64 group_of(sqlite3_int64 n) { return 11000 + n % GROUPS; }
static sqlite3_int64 station_of(sqlite3_int64 n) { return 12000 + n % STATIONS; }
static sqlite3_int64 caller_of(sqlite3_int64 n) { return 10300000000 + n; }

static void report(int kind, sqlite3_int64 device, sqlite3_int64 of, sqlite3_int64 group) {
    event++;
    RUN(EVENT, event, stamp, kind, device, of, group);
}

static void keep(void) {
    RUN(KEPT, stamp, stamp);
    RUN(META, stamp, stamp, call, event);
}

/* Twelve changes: an old call goes with its connections, a new one comes and is offered at once. */
static void arrive(void) {
    sqlite3_int64 old = call + 1 - CALLS;
    stamp++;
    run(BEGIN, 0, 0);
    RUN(NO_CONNECTION, old, station_of(old));
    RUN(NO_CONNECTION, old, caller_of(old));
    RUN(NO_CALL, old);
    call++;
    RUN(CALL, call, caller_of(call), group_of(call), stamp);
    RUN(CONNECTION, call, caller_of(call), 3, -1, -1);
    RUN(CONNECTION, call, station_of(call), 2, group_of(call), stamp);
    RUN(GROUP, group_of(call), stamp);
    report(1, group_of(call), call, -1);
    report(2, group_of(call), call, group_of(call));
    report(3, station_of(call), call, group_of(call));
    keep();
    run(COMMIT, 0, 0);
}

/* An answerCall: a connection, the agent, the group's figures, two reports, the reply and the counters. */
static void answer(void) {
    sqlite3_int64 of = call - stamp % (CALLS - 1);
    stamp++;
    run(BEGIN, 0, 0);
    RUN(CONNECTION, of, caller_of(of), 3, group_of(of), stamp);
    RUN(AGENT, station_of(of) - 11000, 2, station_of(of), group_of(of), stamp);
    RUN(GROUP, group_of(of), stamp);
    report(4, station_of(of), of, group_of(of));
    report(5, station_of(of), -1, -1);
    keep();
    run(COMMIT, 0, 0);
}

static double timed(void (*request)(void), int count) {
    struct timespec from, to;
    clock_gettime(CLOCK_MONOTONIC, &from);
    for (int i = 0; i < count; i++) request();
    clock_gettime(CLOCK_MONOTONIC, &to);
    return ((to.tv_sec - from.tv_sec) * 1e6 + (to.tv_nsec - from.tv_nsec) / 1e3) / count;
}

int main(int argc, char **argv) {
    int count = argc == 3 || argc == 4 ? atoi(argv[2]) : 0;
    int page = argc == 4 ? atoi(argv[3]) : 4096;
    if (count < 1 || page < 512) {
        fprintf(stderr, "usage: ordinary FILE COUNT [PAGE]\n");
        return 2;
    }
    char log[4096], size[64];
    unlink(argv[1]);
    snprintf(log, sizeof log, "%s-wal", argv[1]);
    unlink(log);
    check(sqlite3_open(argv[1], &db) == SQLITE_OK);
    snprintf(size, sizeof size, "PRAGMA page_size = %d", page);
    check(sqlite3_exec(db, size, 0, 0, 0) == SQLITE_OK);
    check(sqlite3_exec(db, schema, 0, 0, 0) == SQLITE_OK);
    for (int i = 0; i < STATEMENTS; i++)
        check(sqlite3_prepare_v3(db, texts[i], -1, SQLITE_PREPARE_PERSISTENT, &statements[i], 0) == SQLITE_OK);
    run(BEGIN, 0, 0);
    for (int i = 0; i < GROUPS; i++) RUN(GROUP, group_of(i), 0);
    for (int i = 0; i < STATIONS; i++) {
        RUN(STATION, station_of(i));
        RUN(AGENT, station_of(i) - 11000, 1, station_of(i), group_of(i), i);
    }
    for (call = 1; call <= CALLS; call++) {
        RUN(CALL, call, caller_of(call), group_of(call), 1);
        RUN(CONNECTION, call, caller_of(call), 3, -1, -1);
    }
    call = CALLS;
    run(COMMIT, 0, 0);
    printf("twelve changes %.1f us\n", timed(arrive, count));
    printf("answerCall %.1f us\n", timed(answer, count));
    sqlite3_close(db);
    return 0;
}
