"""What the apis of groups and of their offsets answer, over the plain lists of `plain_broker`. For the test that works answers
out on its own."""

from kbroker_testing.acl_model import Kind, Operation
from kbroker_testing.codes import Code
from tests.models.plain_broker import LAST_EPOCH

# ---- what may be asked: an operation on a resource of a kind


def may_use_id(name):
    return Operation.WRITE, Kind.TransactionalId, name


def may_read_group(name):
    return Operation.READ, Kind.Group, name


def may_read_topic(name):
    return Operation.READ, Kind.Topic, name


def may_write_topic(name):
    return Operation.WRITE, Kind.Topic, name


def may_describe_topic(name):
    return Operation.DESCRIBE, Kind.Topic, name


# ---- answers


def by_partition(fields, answer):
    """Answers each partition of each topic in its order."""
    topics = []
    for topic in fields["topics"]:
        parts = [answer(topic["topic"], it if isinstance(it, dict) else {"index": it}) for it in topic["partitions"]]
        topics.append({"topic": topic["topic"], "partitions": parts})
    return topics


def error(code):
    return {"throttle": 0, "error": code}


class GroupApis:
    """What a request of a group is answered."""

    def TxnOffsetCommit(self, fields):
        name, group = fields["transactional_id"], self.world.group(fields["group"])

        def part(topic, it):
            place = topic, it["index"]
            code = self.check(may_use_id(name), may_read_group(fields["group"]), may_read_topic(topic))
            code = code or self.missing(place)
            code = code or self.pair_fault(name, fields["producer"], fields["epoch"])
            if not code and fields["epoch"] == LAST_EPOCH:
                code = Code.INVALID_PRODUCER_EPOCH
            code = code or self.holds(name, fields["producer"], fields["epoch"], fields["group"])
            if not code and (fields["generation"], fields["member"]) != (-1, ""):
                code = self.member_fault(group, fields)
            if not code:
                group.events.append(("stage", fields["producer"], place, it["offset"], it["metadata"] or ""))
            return {"index": it["index"], "error": code}

        return {"throttle": 0, "topics": by_partition(fields, part)}

    def member_fault(self, group, fields):
        if group.member is None or group.member != fields["member"]:
            return Code.UNKNOWN_MEMBER_ID
        return Code.NONE if group.generation == fields["generation"] else Code.ILLEGAL_GENERATION

    def OffsetCommit(self, fields):
        group = self.world.group(fields["group"])

        def part(topic, it):
            place = topic, it["index"]
            code = self.check(may_read_group(fields["group"]), may_read_topic(topic)) or self.missing(place)
            if not code and (fields["generation"], fields["member"]) == (-1, ""):
                code = Code.NONE if group.member is None else Code.UNKNOWN_MEMBER_ID
            elif not code:
                code = self.member_fault(group, fields) or (Code.REBALANCE_IN_PROGRESS if group.awaits_sync else Code.NONE)
            if not code:
                group.events.append(("put", None, place, it["offset"], it["metadata"] or ""))
            return {"index": it["index"], "error": code}

        return {"topics": by_partition(fields, part)}

    def OffsetFetch(self, fields):
        code = self.check((Operation.DESCRIBE, Kind.Group, fields["group"]))
        if code:
            return {"throttle": 0, "topics": [], "error": code}
        group, stable = self.world.group(fields["group"]), fields["require_stable"]

        def part(topic, it, code=None):
            place = topic, it["index"]
            code = self.check(may_describe_topic(topic)) if code is None else code
            if not code and stable and group.staged(place):
                code = Code.UNSTABLE_OFFSET_COMMIT
            found = None if code else group.committed(place)
            offset, metadata = found or (-1, "")
            return {"index": it["index"], "offset": offset, "leader_epoch": -1, "metadata": metadata, "error": code}

        if fields["topics"] is not None:
            return {"throttle": 0, "topics": by_partition(fields, part), "error": Code.NONE}
        topics = []
        for topic in self.described():
            parts = [part(topic, {"index": it}, Code.NONE) for it in range(self.world.topics[topic])]
            parts = [it for it in parts if it["error"] or it["offset"] != -1]
            topics += [{"topic": topic, "partitions": parts}] * bool(parts)
        return {"throttle": 0, "topics": topics, "error": Code.NONE}

    def FindCoordinator(self, fields):
        kind = {0: Kind.Group, 1: Kind.TransactionalId}.get(fields["key_type"])
        code = self.check((Operation.DESCRIBE, kind, fields["key"])) if kind else Code.INVALID_REQUEST
        settings = self.world.settings
        node = (-1, "", -1) if code else (settings["node_id"], settings["host"], settings["port"])
        return {**error(code), "message": None, **dict(zip(("node", "host", "port"), node))}

    def of_group(self, fields):
        """The code of a group that may not be read, or has no name; and the group."""
        code = self.check(may_read_group(fields["group"])) or (Code.NONE if fields["group"] else Code.INVALID_GROUP_ID)
        return code, self.world.group(fields["group"])

    def JoinGroup(self, fields):
        code, group = self.of_group(fields)
        given = fields["member"]
        if not code and not 6_000 <= fields["session_timeout"] <= 1_800_000:
            code = Code.INVALID_SESSION_TIMEOUT
        if not code and not (fields["protocol_type"] and fields["protocols"]):
            code = Code.INCONSISTENT_GROUP_PROTOCOL
        if not code and given and given != group.member:
            code = Code.UNKNOWN_MEMBER_ID
        if not code and not given and group.member is not None:
            code = Code.GROUP_MAX_SIZE_REACHED
        if code:
            nobody = {"protocol": "", "leader": "", "member": given, "members": []}
            return {**error(code), "generation": -1, **nobody}
        group.member = given or f"m-{self.world.events}"
        group.generation, group.timeout, group.heard = group.generation + 1, fields["session_timeout"], self.world.moment
        group.awaits_sync = True
        first = fields["protocols"][0]
        told = {"protocol": first["name"], "leader": group.member, "member": group.member}
        members = [{"member": group.member, "metadata": first["metadata"]}]
        return {**error(Code.NONE), "generation": group.generation, **told, "members": members}

    def SyncGroup(self, fields):
        code, group = self.of_group(fields)
        code = code or self.member_fault(group, fields)
        if code:
            return {**error(code), "assignment": b""}
        if group.awaits_sync:
            own = (it["assignment"] for it in fields["assignments"] if it["member"] == group.member)
            group.assignment, group.awaits_sync = next(own, b""), False
        group.heard = self.world.moment
        return {**error(Code.NONE), "assignment": group.assignment}

    def Heartbeat(self, fields):
        code, group = self.of_group(fields)
        code = code or self.member_fault(group, fields)
        if not code:
            group.heard = self.world.moment
        return error(code)

    def LeaveGroup(self, fields):
        code, group = self.of_group(fields)
        if not code:
            code = Code.UNKNOWN_MEMBER_ID if group.member is None or group.member != fields["member"] else Code.NONE
        if not code:
            group.member = None
        return error(code)
