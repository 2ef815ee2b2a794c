"""Counts what a core-wide selection and a charge cover, and finds where cookie searches meet a known difference."""

from converter.events import FAIR, IDLE, NO_COOKIE
from converter.need import need

DIFFERENCE = "cookie search among equal priorities: not the first by stamp"


def count_selection(scenario, event):
    """Counts a selection into a scenario, and answers the known difference that it meets, None where it meets none."""
    count_leads(scenario.counts, event)
    difference = None
    for first in event.firsts:
        if first.priority != IDLE and event.after["cookie"] not in (NO_COOKIE, first.cookie):
            difference = search(scenario, event, first.sibling) or difference
    return difference


def count_leads(counts, event):
    """The lead is the first of the highest ones, in the order in which the kernel looked at them. Where it depends on
    virtual times, the scenario ends."""
    highest = min(first.priority for first in event.firsts)
    leads = [first for first in event.firsts if first.priority == highest]
    need(highest < FAIR or len({first.cookie for first in event.firsts if first.priority < IDLE}) <= 1,
         "fair leads with distinct cookies")
    if highest < FAIR and len(leads) > 1:
        counts["ties of leads"] += 1
        if len({lead.cookie for lead in leads}) > 1:
            counts["ties of leads with distinct cookies"] += 1
    if highest < IDLE and leads[0].sibling != event.sibling:
        counts["selections whose lead is another sibling's"] += 1


def search(scenario, event, sibling):
    """A cookie search on a sibling. The kernel takes the first by priority and place, the rules by priority and stamp.
    Where it took another than the first by place, the scenario ends."""
    found = {pid: task for pid, task in scenario.queues[sibling].items() if task.cookie == event.after["cookie"]}
    if not found:
        return None
    scenario.counts["choices by a cookie search"] += 1
    chosen, _ = event.choices[sibling]
    by_place = min(found, key=lambda pid: (found[pid].priority, found[pid].place))
    by_stamp = min(found, key=lambda pid: (found[pid].priority, found[pid].stamp))
    need(chosen == by_place, "cookie search: a choice that the tree's order does not explain")
    others = [task for pid, task in found.items() if pid != by_place]
    if any(task.priority == found[by_place].priority for task in others):
        scenario.counts["cookie searches among equal priorities"] += 1
    return DIFFERENCE if chosen != by_stamp else None


def count_charge(counts, charge, core_cookie, step):
    """Counts a charge that is made by a step of this kind, under this core cookie."""
    counts["intervals"] += 1
    counts[f"intervals charged at {step}s"] += 1
    counts["intervals under core cookie 0"] += core_cookie == 0
    counts["intervals with a count above 1"] += charge.count > 1
    counts["intervals with an occupation above 1"] += charge.occupation > 1
    if charge.count > 1 or charge.occupation > 1:
        counts["intervals whose time is divided"] += 1
        counts["intervals whose share is rounded down"] += charge.time * charge.count % charge.occupation != 0
    for share in charge.shares:
        counts["shares"] += 1
        counts["shares of tasks without a cookie"] += share.cookie == NO_COOKIE
        counts["shares of tasks that wait"] += share.is_waiting
