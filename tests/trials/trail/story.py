"""A few requests around 14:32 of a day in Berlin, and what acd-trail has to say of them, written by hand."""
import datetime
import zoneinfo

ZONE = "Europe/Berlin"
NOON = int(datetime.datetime(2026, 11, 28, 14, 0, tzinfo=zoneinfo.ZoneInfo(ZONE)).timestamp())

REQUESTS = [
    (0, '{"requester":"plan","invoke":1,"service":"addGroup","device":"100","name":"Billing","ring":20,"wrap":30}'),
    (0, '{"requester":"plan","invoke":2,"service":"addGroup","device":"0110","name":"=1+1","ring":0,"wrap":0}'),
    (0, '{"requester":"plan","invoke":3,"service":"addStation","device":"201"}'),
    (0, '{"requester":"plan","invoke":4,"service":"addAgent","agent":"7","name":"Ana \\"A\\" M, senior"}'),
    (NOON + 1800, '{"requester":"ana-3f","invoke":1,"service":"setAgentState","agent":"7","requested":"loggedOn","device":"201","groups":["0110","100"]}'),
    (NOON + 1919, '{"requester":"lea","invoke":1,"service":"setGroupPriority","device":"100","priority":3}'),
    (NOON + 1920, '{"requester":"lea-2","invoke":1,"service":"setGroupPriority","device":"100","priority":5}'),
    (NOON + 1979, '{"requester":"leander","invoke":12,"service":"setGroupPriority","device":"0110","priority":9}'),
    (NOON + 1980, '{"requester":"lea","invoke":2,"service":"setGroupPriority","device":"100","priority":0}'),
    (NOON + 1970, '{"requester":"pbx","invoke":1,"service":"arriveCall","caller":"0301234567890","called":"100"}'),
    (NOON + 2000, '{"requester":"clock-abcdefghijkl","invoke":1,"service":"tick"}'),
    (NOON + 2001, '{"requester":"1-2","invoke":999999999,"service":"holdCall","call":1,"device":"201","note":"nobody reads it"}'),
    (NOON + 2001, '{"requester":"1-2","invoke":999999999,"service":"holdCall","call":1,"device":"201"}'),
    (NOON + 2002, '{"requester":"1-2","invoke":999999999,"service":"tick"}'),
    (NOON + 2003, '{"requester":"ana","invoke":1,"service":"setAgentState","agent":"7","requested":"ready"}'),
    (NOON + 2004, '{"requester":"ana","invoke":2,"service":"setAgentState","agent":"7","requested":"notReady"}'),
    (NOON + 2005, '{"requester":"pbx","invoke":2,"service":"monitorStart","device":"201"}'),
]
LINES = "".join(f"{moment} {request}\n" for moment, request in REQUESTS)

TOLD = """\
-  plan  addGroup device 100, name "Billing", ring 20, wrap 30: done  (#1, invoke 1)
-  plan  addGroup device 0110, name "=1+1", ring 0, wrap 0: done  (#2, invoke 2)
-  plan  addStation device 201: done  (#3, invoke 3)
-  plan  addAgent agent 7, name "Ana \\"A\\" M, senior": done  (#4, invoke 4)
2026-11-28 14:30:00  ana-3f  setAgentState agent 7, requested loggedOn, device 201, groups 100 0110: state notReady  (#5, invoke 1)
2026-11-28 14:31:59  lea  setGroupPriority device 100, priority 3: done  (#6, invoke 1)
2026-11-28 14:32:00  lea-2  setGroupPriority device 100, priority 5: done  (#7, invoke 1)
2026-11-28 14:32:59  leander  setGroupPriority device 0110, priority 9: done  (#8, invoke 12)
2026-11-28 14:33:00  lea  setGroupPriority device 100, priority 0: done  (#9, invoke 2)
2026-11-28 14:33:00  pbx  arriveCall caller 0301234567890, called 100: call 1  (#10, invoke 1)
2026-11-28 14:33:20  clock-..  tick: done  (#11, invoke 1)
2026-11-28 14:33:21  1-2  holdCall call 1, device 201: refused, unknownConnection  (#12, invoke 999999999)
2026-11-28 14:33:23  ana  setAgentState agent 7, requested ready: state ready  (#13, invoke 1)
2026-11-28 14:33:24  ana  setAgentState agent 7, requested notReady: state ready, pending notReady  (#14, invoke 2)
2026-11-28 14:33:25  pbx  monitorStart device 201: monitor 1  (#15, invoke 2)
"""
# the stamps that remain by these words
CHOSEN = [
    (["--service", "setGroupPriority", "--at", "2026-11-28T14:32"], [7, 8]),
    (["--at", "2026-11-28 14:32:59"], [8]),
    (["--since", "2026-11-28T14:32:01", "--until", "2026-11-28T14:33"], [8, 9, 10, 11, 12, 13, 14, 15]),
    (["--until", "1970-01-01"], [1, 2, 3, 4]),
    (["--since", "1970-01-02"], [5, 6, 7, 8, 9, 10, 11, 12, 13, 14, 15]),
    (["--at", "2026-11-27"], []),
    (["--requester", "lea"], [6, 7, 9]),
    (["--requester", "lea", "--requester", "pbx"], [6, 7, 9, 10, 15]),
    (["--requester", "clock"], [11]),
    (["--requester", "ana", "--agent", "7"], [5, 13, 14]),
    (["--device", "100"], [1, 5, 6, 7, 9, 10]),
    (["--device", "0110"], [2, 5, 8]),
    (["--device", "110"], []),
    (["--device", "0301234567890"], [10]),
    (["--call", "1"], [10, 12]),
    (["--invoke", "1", "--service", "tick", "--service", "arriveCall"], [10, 11]),
    (["--stamp", "8", "--stamp", "3"], [3, 8]),
    (["--agent", "07"], []),
]
# in the hour that comes twice as summer time ends: at 2:30, 2:45, 2:30 and 2:31
TWICE = [int(datetime.datetime(2026, 10, 25, hour, minute, tzinfo=datetime.timezone.utc).timestamp()) for hour, minute in ((0, 30), (0, 45), (1, 30), (1, 31))]
IN_TWICE = (["--at", "2026-10-25T02:30"], 3)
NAMED = """\
2026-11-28 14:30:00  ana-3f  setAgentState agent 7 (Änna), requested loggedOn, device 201, groups 100 0110 (Billing; =1+1): state notReady  (#5, invoke 1)
2026-11-28 14:33:00  pbx  arriveCall caller 0301234567890, called 100 (Billing): call 1  (#10, invoke 1)
"""
OFFICE = '{"names":{"agents":{"7":"Änna"}},"zone":"Europe/Berlin"}'
HEAD = "stamp,when,requester,invoke,service,agent,requested,call,caller,called,device,to,groups,name,ring,wrap,priority,monitor,outcome"
CSV = f"""\
{HEAD}
2,-,plan,2,addGroup,,,,,,0110,,,=1+1,0,0,,,done
5,2026-11-28 14:30:00,ana-3f,1,setAgentState,7,loggedOn,,,,201,,100 0110,,,,,,state notReady
10,2026-11-28 14:33:00,pbx,1,arriveCall,,,1,0301234567890,100,,,,,,,,,call 1
12,2026-11-28 14:33:21,1-2,999999999,holdCall,,,1,,,201,,,,,,,,"refused, unknownConnection"
15,2026-11-28 14:33:25,pbx,2,monitorStart,,,,,,201,,,,,,,1,monitor 1
"""
EXCEL = f"""\
\ufeff{HEAD},agent_name,called_name,device_name,to_name,group_names
2,-,plan,2,addGroup,,,,,,'0110,,,'=1+1,0,0,,,done,,,'=1+1,,
5,2026-11-28 14:30:00,ana-3f,1,setAgentState,7,loggedOn,,,,201,,100 0110,,,,,,state notReady,Änna,,,,Billing; =1+1
10,2026-11-28 14:33:00,pbx,1,arriveCall,,,1,'0301234567890,100,,,,,,,,,call 1,,Billing,,,
12,2026-11-28 14:33:21,'1-2,999999999,holdCall,,,1,,,201,,,,,,,,"refused, unknownConnection",,,,,
15,2026-11-28 14:33:25,pbx,2,monitorStart,,,,,,201,,,,,,,1,monitor 1,,,,,
"""
IN_CSV = ["--stamp", "2", "--stamp", "5", "--stamp", "10", "--stamp", "12", "--stamp", "15"]
