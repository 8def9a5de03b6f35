"""Days' files as acd-records writes them, for the tests of what adds them up."""
GROUPS = ("begin,group,entered,answered,abandoned,moved,limit,in_time,abandoned_late,service_level,waited,longest,most_waiting,handled,handling,closed,"
          "answered_by_stay,abandoned_by_stay,in_time_by_stay,late_by_stay,service_level_by_stay,group_name,formulas")
AGENTS = ("day,agent,name,logged_on,ready,talking,wrap_up,rings_not_answered,rings_refused,rings_hung_up,rings,calls,own_calls,not_ready,first_on,last_on,groups,group_names,"
          "formulas")
# of Monday two quarters of an hour of group 100 at nine and one at ten, and one of group 0110; of Tuesday one
MONDAY = """\
2026-11-23 09:00:00,100,5,4,1,0,20,3,1,60,40,25,3,4,400,0,4,1,3,1,60,Billing,2
2026-11-23 09:15:00,100,2,1,0,1,20,1,0,100,10,10,1,1,120,1,1,0,1,0,100,Billing,2
2026-11-23 10:45:00,100,0,0,1,0,20,0,0,,0,,2,0,0,0,0,1,0,0,,Billing,2
2026-11-23 09:00:00,'0110,3,2,0,0,30,2,0,100,6,4,1,2,90,0,2,0,2,0,100,'=Help,2
"""
TUESDAY = "2026-11-24 09:30:00,100,1,1,0,0,20,0,0,0,50,50,1,1,60,0,1,0,0,0,0,Rechnung,2\n"
ANA = "2026-11-23,7,Ana,3600,1800,1200,300,1,2,3,9,3,1,300,2026-11-23 09:00:00,2026-11-23 10:00:00,100 0110,Billing; =Help,2\n"
BEN = "2026-11-23,'08,Ben,600,600,0,0,0,0,0,0,0,0,0,2026-11-23 09:00:00,2026-11-23 09:10:00,120,Sales,2\n"


def lay(folder, kind, day, rows, head=None):
    """A day's file."""
    place = folder / kind / f"{day}.csv"
    place.parent.mkdir(parents=True, exist_ok=True)
    place.write_text("\ufeff" + (head or {"groups": GROUPS, "agents": AGENTS}[kind]) + "\n" + rows, encoding="utf-8")
    return place


def week(folder):
    """A Monday and a Tuesday, a Wednesday of other formulas, one Thursday that can't be read, and a Friday in which nothing was."""
    lay(folder, "groups", "2026-11-23", MONDAY)
    lay(folder, "groups", "2026-11-24", TUESDAY)
    lay(folder, "groups", "2026-11-25", TUESDAY.rpartition(",")[0] + "\n", GROUPS.rpartition(",")[0])
    lay(folder, "groups", "2026-11-26", "2026-11-26 09:00:00,100,x\n")
    lay(folder, "groups", "2026-11-27", "")
    lay(folder, "agents", "2026-11-23", ANA + BEN)
    lay(folder, "agents", "2026-11-24", ANA.replace("2026-11-23", "2026-11-24"))
