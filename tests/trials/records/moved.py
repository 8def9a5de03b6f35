"""Four callers of whom two are moved to another group and two are passed on to an agent by name, and what has to come of it, reckoned by hand."""

LINES = """\
35990 {"requester":"plan","invoke":1,"service":"addGroup","device":"100","name":"Billing","ring":20,"wrap":30}
35990 {"requester":"plan","invoke":2,"service":"addGroup","device":"110","name":"Orders","ring":20,"wrap":30}
35990 {"requester":"plan","invoke":3,"service":"addStation","device":"201"}
35990 {"requester":"plan","invoke":4,"service":"addStation","device":"202"}
35990 {"requester":"plan","invoke":5,"service":"addAgent","agent":"7","name":"Ana"}
35990 {"requester":"plan","invoke":6,"service":"addAgent","agent":"8","name":"Ben"}
35990 {"requester":"desk","invoke":1,"service":"setAgentState","agent":"7","requested":"loggedOn","device":"201","group":"100"}
35990 {"requester":"desk","invoke":2,"service":"setAgentState","agent":"8","requested":"loggedOn","device":"202","group":"110"}
36000 {"requester":"pbx","invoke":1,"service":"arriveCall","caller":"0301","called":"100"}
36010 {"requester":"pbx","invoke":2,"service":"arriveCall","caller":"0302","called":"100"}
36600 {"requester":"lead","invoke":1,"service":"deflectCall","call":1,"device":"100","to":"110"}
36600 {"requester":"desk","invoke":3,"service":"setAgentState","agent":"8","requested":"ready"}
36605 {"requester":"desk","invoke":4,"service":"answerCall","call":1,"device":"202"}
36610 {"requester":"lead","invoke":2,"service":"deflectCall","call":2,"device":"100","to":"110"}
36620 {"requester":"pbx","invoke":3,"service":"clearConnection","call":1,"device":"0301"}
36625 {"requester":"pbx","invoke":4,"service":"clearConnection","call":2,"device":"0302"}
36640 {"requester":"desk","invoke":5,"service":"setAgentState","agent":"8","requested":"ready"}
36990 {"requester":"desk","invoke":6,"service":"setAgentState","agent":"7","requested":"ready"}
37000 {"requester":"pbx","invoke":5,"service":"arriveCall","caller":"0303","called":"100"}
37003 {"requester":"desk","invoke":7,"service":"answerCall","call":3,"device":"201"}
37013 {"requester":"desk","invoke":8,"service":"singleStepTransfer","call":3,"device":"201","to":"202"}
37020 {"requester":"desk","invoke":9,"service":"setAgentState","agent":"7","requested":"ready"}
37613 {"requester":"pbx","invoke":6,"service":"clearConnection","call":3,"device":"0303"}
38000 {"requester":"pbx","invoke":7,"service":"arriveCall","caller":"0304","called":"100"}
38004 {"requester":"desk","invoke":10,"service":"answerCall","call":4,"device":"201"}
38014 {"requester":"desk","invoke":11,"service":"singleStepTransfer","call":4,"device":"201","to":"202"}
38022 {"requester":"desk","invoke":12,"service":"answerCall","call":4,"device":"202"}
38030 {"requester":"desk","invoke":13,"service":"setAgentState","agent":"7","requested":"ready"}
38622 {"requester":"pbx","invoke":8,"service":"clearConnection","call":4,"device":"0304"}
"""
# Caller 1 waits in 100 for 600 s and is answered 5 s after the move: 605 s. Caller 2 waits there as long, and gives up 15 s after the move: 615 s. Callers 3 and 4 are
# answered after 3 and 4 s and passed on to Ben, where 3 gives up after 600 s and 4 is answered after 8 s. So of six waits three were answered within 20 s, one was answered
# late and two gave up late: 50 %. By stay in a queue all three of 5, 3 and 4 s were answered in time, and nobody gave up late: 100 %, and 4 s on average. Ben
# talks 600 s to caller 4, which is a call that he is done with, beside Ana's 26 s
GROUPS = """\
begin,group,entered,answered,abandoned,moved,limit,in_time,abandoned_late,service_level,waited,longest,most_waiting,handled,handling,closed,answered_by_stay,abandoned_by_stay,in_time_by_stay,late_by_stay,service_level_by_stay
1970-01-01 10:00:00,100,2,0,0,2,20,0,0,,0,,2,0,0,0,0,0,0,0,
1970-01-01 10:00:00,110,2,1,1,0,20,0,1,0,605,605,1,1,35,0,1,1,1,0,100
1970-01-01 10:15:00,100,1,1,1,0,20,1,1,50,3,3,1,1,17,0,1,0,1,0,100
1970-01-01 10:30:00,100,1,2,0,0,20,2,0,100,12,8,1,2,626,0,1,0,1,0,100
"""
WAITED = [605, 615, 3 + 600, 4 + 8]
