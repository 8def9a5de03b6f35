"""A story of eight calls around a midnight, and what has to come of it, reckoned by hand."""

LINES = """\
86300 {"requester":"plan","invoke":1,"service":"addGroup","device":"100","name":"Billing","ring":20,"wrap":30}
86300 {"requester":"plan","invoke":2,"service":"addStation","device":"201"}
86300 {"requester":"plan","invoke":3,"service":"addStation","device":"202"}
86300 {"requester":"plan","invoke":4,"service":"addAgent","agent":"7","name":"Ana"}
86300 {"requester":"plan","invoke":5,"service":"addAgent","agent":"8","name":"Ben, senior"}
86310 {"requester":"desk","invoke":1,"service":"setAgentState","agent":"7","requested":"loggedOn","device":"201","group":"100"}
86310 {"requester":"desk","invoke":2,"service":"setAgentState","agent":"7","requested":"ready"}
86320 {"requester":"pbx","invoke":1,"service":"arriveCall","caller":"0301","called":"100"}
86325 {"requester":"desk","invoke":3,"service":"answerCall","call":1,"device":"201"}
86335 {"requester":"desk","invoke":4,"service":"holdCall","call":1,"device":"201"}
86345 {"requester":"desk","invoke":5,"service":"retrieveCall","call":1,"device":"201"}
86350 {"requester":"pbx","invoke":2,"service":"arriveCall","caller":"0302","called":"100"}
86360 {"requester":"pbx","invoke":3,"service":"clearConnection","call":1,"device":"0301"}
86380 {"requester":"desk","invoke":6,"service":"setAgentState","agent":"7","requested":"ready"}
86390 {"requester":"desk","invoke":7,"service":"setAgentState","agent":"8","requested":"loggedOn","device":"202","group":"100"}
86400 {"requester":"clock","invoke":1,"service":"tick"}
86410 {"requester":"pbx","invoke":4,"service":"clearConnection","call":2,"device":"0302"}
86420 {"requester":"desk","invoke":8,"service":"makeCall","device":"202","called":"201"}
86425 {"requester":"desk","invoke":9,"service":"phoneOffHook","call":3,"device":"202"}
86430 {"requester":"desk","invoke":10,"service":"answerCall","call":3,"device":"201"}
86440 {"requester":"desk","invoke":11,"service":"singleStepTransfer","call":3,"device":"201","to":"100"}
86450 {"requester":"desk","invoke":12,"service":"setAgentState","agent":"7","requested":"ready"}
86455 {"requester":"desk","invoke":13,"service":"answerCall","call":3,"device":"201"}
86470 {"requester":"desk","invoke":14,"service":"clearConnection","call":3,"device":"201"}
86480 {"requester":"pbx","invoke":5,"service":"arriveCall","caller":"0303","called":"201"}
86482 {"requester":"pbx","invoke":6,"service":"arriveCall","caller":"0304","called":"201"}
86485 {"requester":"pbx","invoke":7,"service":"clearConnection","call":5,"device":"0304"}
86490 {"requester":"pbx","invoke":8,"service":"clearConnection","call":4,"device":"0303"}
86500 {"requester":"clock","invoke":2,"service":"tick"}
86510 {"requester":"pbx","invoke":9,"service":"arriveCall","caller":"0305","called":"100"}
86520 {"requester":"desk","invoke":15,"service":"setAgentState","agent":"8","requested":"loggedOff"}
86525 {"requester":"desk","invoke":16,"service":"rejectCall","call":6,"device":"201"}
86525 {"requester":"desk","invoke":17,"service":"setAgentState","agent":"7","requested":"ready"}
86545 {"requester":"clock","invoke":3,"service":"tick"}
86545 {"requester":"desk","invoke":18,"service":"rejectCall","call":6,"device":"201"}
86545 {"requester":"desk","invoke":19,"service":"setAgentState","agent":"7","requested":"ready"}
86545 {"requester":"desk","invoke":20,"service":"rejectCall","call":6,"device":"201"}
86550 {"requester":"desk","invoke":21,"service":"setAgentState","agent":"7","requested":"ready"}
86555 {"requester":"desk","invoke":22,"service":"clearConnection","call":6,"device":"201"}
86558 {"requester":"desk","invoke":23,"service":"setAgentState","agent":"7","requested":"notReady"}
86560 {"requester":"pbx","invoke":10,"service":"arriveCall","caller":"0306","called":"100"}
86570 {"requester":"pbx","invoke":11,"service":"clearConnection","call":7,"device":"100"}
86580 {"requester":"pbx","invoke":12,"service":"arriveCall","caller":"0307","called":"100"}
"""
# call 1 was on hold from 86335 to 86345; the wrap-up behind it ended as the agent was ready, at 86380, that behind call 3 by the tick at 86500.
# Call 2 rang from 86380 on and wasn't answered; call 3 was answered at 86430, waited from 86440 and was answered again at 86455. Call 6 rang from
# 86510 on and was rejected at 86525; it rang anew, and a tick took it back at 86545; in the same second a reject came too late and was refused,
# and the call rang once more and was rejected. It rang a fourth time at 86550, and the agent threw the caller out; call 7 was taken out of the queue
CALLS = """\
number,caller,called,entered,groups,rings,agent,station,waited,talked,held,wrapped_up,ended,rung,answered_at,ended_at
1,0301,100,1970-01-01 23:58:40,100,1,7,201,5,25,10,20,by caller,,1970-01-01 23:58:45,1970-01-01 23:59:20
2,0302,100,1970-01-01 23:59:10,100,1,,,60,0,0,0,abandoned,7,,1970-01-02 00:00:10
3,202,201,1970-01-02 00:00:20,100,2,7 7,201 201,15,25,0,30,by agent,,1970-01-02 00:00:30,1970-01-02 00:01:10
4,0303,201,1970-01-02 00:01:20,,1,,,0,0,0,0,not answered,7,,1970-01-02 00:01:30
5,0304,201,1970-01-02 00:01:22,,0,,,0,0,0,0,busy,,,1970-01-02 00:01:25
6,0305,100,1970-01-02 00:01:50,100,4,,,45,0,0,0,at 201 while it rang,7 7 7 7,,1970-01-02 00:02:35
7,0306,100,1970-01-02 00:02:40,100,0,,,10,0,0,0,at 100 while it waited,,,1970-01-02 00:02:50
8,0307,100,1970-01-02 00:03:00,100,0,,,0,0,0,0,live,,,
"""
LEGS = """\
call,leg,device,agent,group,begun,answered_at,ended_at,waited,rang,talked,held,wrapped_up,ended,to
1,1,100,,100,1970-01-01 23:58:40,,1970-01-01 23:58:40,0,0,0,0,0,offered,201
1,2,201,7,100,1970-01-01 23:58:40,1970-01-01 23:58:45,1970-01-01 23:59:20,0,5,25,10,20,by caller,
2,1,100,,100,1970-01-01 23:59:10,,1970-01-01 23:59:40,30,0,0,0,0,offered,201
2,2,201,7,100,1970-01-01 23:59:40,,1970-01-02 00:00:00,0,20,0,0,0,taken back,100
2,3,100,,100,1970-01-02 00:00:00,,1970-01-02 00:00:10,10,0,0,0,0,abandoned,
3,1,202,8,,1970-01-02 00:00:20,,1970-01-02 00:01:10,0,0,25,0,0,by agent,
3,2,201,7,,1970-01-02 00:00:25,1970-01-02 00:00:30,1970-01-02 00:00:40,0,5,10,0,0,transferred,100
3,3,100,,100,1970-01-02 00:00:40,,1970-01-02 00:00:50,10,0,0,0,0,offered,201
3,4,201,7,100,1970-01-02 00:00:50,1970-01-02 00:00:55,1970-01-02 00:01:10,0,5,15,0,30,by agent,
4,1,201,7,,1970-01-02 00:01:20,,1970-01-02 00:01:30,0,10,0,0,0,not answered,
5,1,201,7,,1970-01-02 00:01:22,,1970-01-02 00:01:25,0,0,0,0,0,busy,
6,1,100,,100,1970-01-02 00:01:50,,1970-01-02 00:01:50,0,0,0,0,0,offered,201
6,2,201,7,100,1970-01-02 00:01:50,,1970-01-02 00:02:05,0,15,0,0,0,rejected,100
6,3,100,,100,1970-01-02 00:02:05,,1970-01-02 00:02:05,0,0,0,0,0,offered,201
6,4,201,7,100,1970-01-02 00:02:05,,1970-01-02 00:02:25,0,20,0,0,0,taken back,100
6,5,100,,100,1970-01-02 00:02:25,,1970-01-02 00:02:25,0,0,0,0,0,offered,201
6,6,201,7,100,1970-01-02 00:02:25,,1970-01-02 00:02:25,0,0,0,0,0,rejected,100
6,7,100,,100,1970-01-02 00:02:25,,1970-01-02 00:02:30,5,0,0,0,0,offered,201
6,8,201,7,100,1970-01-02 00:02:30,,1970-01-02 00:02:35,0,5,0,0,0,at 201 while it rang,
7,1,100,,100,1970-01-02 00:02:40,,1970-01-02 00:02:50,10,0,0,0,0,at 100 while it waited,
8,1,100,,100,1970-01-02 00:03:00,,,0,0,0,0,0,live,
"""
# ready from 86310 to 86325 and from 86380 to midnight; busy up to 86360; and on the next day ready from 86450 to 86455, from 86500 to 86545 and from
# 86550 to 86558. Ticks took offers back at 86400 and 86545. Ben was logged on from 86390 to 86520, and made call 3
AGENTS = """\
day,agent,name,logged_on,ready,talking,wrap_up,rings_not_answered,rings_refused,rings_hung_up,rings,calls,own_calls,not_ready,first_on,last_on,groups
1970-01-01,7,Ana,90,35,35,20,0,0,0,2,1,0,0,1970-01-01 23:58:30,1970-01-02 00:00:00,100
1970-01-01,8,"Ben, senior",10,0,0,0,0,0,0,0,0,0,10,1970-01-01 23:59:50,1970-01-02 00:00:00,100
1970-01-02,7,Ana,180,58,15,30,2,2,1,5,1,1,77,1970-01-02 00:00:00,1970-01-02 00:03:00,100
1970-01-02,8,"Ben, senior",120,0,0,0,0,0,0,0,0,1,120,1970-01-02 00:00:00,1970-01-02 00:02:00,100
"""
# call 1 waited 5 s, call 3 15 s; calls 2, 6 and 7 gave up behind 60, 45 and 10 s, or were made to. The agent was busy with call 1, and behind it, from
# 86325 to 86380, with call 3 from 86455 to 86500. Nobody was moved, so it is the same by stay
GROUPS = """\
begin,group,entered,answered,abandoned,moved,limit,in_time,abandoned_late,service_level,waited,longest,most_waiting,handled,handling,closed,answered_by_stay,abandoned_by_stay,in_time_by_stay,late_by_stay,service_level_by_stay
1970-01-01 23:45:00,100,2,1,0,0,20,1,0,100,5,5,1,1,55,0,1,0,1,0,100
1970-01-02 00:00:00,100,4,1,3,0,20,1,2,33,15,15,1,1,45,0,1,3,1,2,33
"""
