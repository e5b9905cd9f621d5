"""Which rows of the log a board under another configuration takes over, for live.py: the rule of `carried` in crates/am_model/src/carry.rt."""
from live_format import label_key


def kept(rows, config):
    """The rows of a board, each with what finds it again in addition to its receiver: the position of the route. `kind` is always webhook, so
    the integration's position is its place among those of its kind."""
    positions = [*config.routes]
    return [row | {"position": positions.index(row["group"]["route"])} for row in rows]


def groups_of(board, opening, rows, now):
    """To which groups of this board the alerts of these rows go: by label set, route and group labels of each. The board is opened anew."""
    found, sets = {}, {label_key(labels): labels for row in rows for labels in row["firing"] + row["resolved"]}

    def see():
        for group in board.call("groups", {})[1]:
            for alert in group["alerts"]:
                found.setdefault(label_key(alert["labels"]), []).append((group["group"]["route"], label_key(group["group"]["labels"])))
        board.open(opening)

    for labels in sets.values():
        # (of the log's label sets only those of one opening count for the board's limits)
        if board.fails("insert", {"now": now, "labels": labels}, ["TooManyNames", "TooManyGroups"]):
            see()
            board.call("insert", {"now": now, "labels": labels})
    see()
    return found


def taken_over(row, config, groups):
    """What a log under this configuration has for a kept row: one for each route of its receiver by which an alert of the row goes to a group
    with the row's group labels. If the route at the row's own position is among them, it has the row alone."""
    if row["integration"] >= len(config.hooks.get(row["receiver"], [])):
        return []
    own, labels = [*config.routes][row["position"]:][:1], label_key(row["group"]["labels"])
    heirs = {route for alert in row["firing"] + row["resolved"] for route, group in groups.get(label_key(alert), [])
             if group == labels and config.routes[route][1] == row["receiver"]}
    plain = {name: value for name, value in row.items() if name != "position"}
    return [plain | {"group": row["group"] | {"route": route}} for route in (own if heirs.issuperset(own) and own else sorted(heirs))]
