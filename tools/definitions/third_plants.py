"""Wrong rules of the third form, as in plants.py: each a change of the definitions of st_third."""
from plants import Plant

USED, ROOM, GIVE, LEAVE, REPLIES, STATE, LIMITS = ("st_third:" + name for name in ("UsedOnce", "Room", "GiveBack", "Leave", "Replies", "State", "Limits"))
MAY_REDUCE = "may_reduce t s ino = passes.may_reduce t.plain s ino && not (owes t.plain.operations t.beside.owed ino)"
UNASKED = "is_unasked (Some s) = (s.requests.next == 1) && not s.due"
ANYTHING = ("DirtyPagesStandAlone ReadsReturnLastWrites DropsHaveACause HardStaysHard HardIsHard TheReportTellsTheLog AnswersAreLogged ChangesAreLocked "
            "ChangesGoInTheOrderOfLocks LossesAreTold DisksHoldWhatIsHard WhoLeavesLosesNothing WhoLeftHasNothing GrantsAreUsed")


def third(name, promises, *changes):
    return Plant(name, promises, changes, "third")


PLANTS = (
    # A grant is used once.
    third("a grant is given back unused", "GrantsAreUsed", (USED, MAY_REDUCE, "may_reduce t s ino = passes.may_reduce t.plain s ino")),
    third("no operation is owed a use", "GrantsAreUsed", (USED, "(find (may_be_owed t ino mode) t.plain.operations)", "None")),
    third("the last operation is owed a use, not the first", "GrantsAreUsed", (
        USED, "(find (may_be_owed t ino mode) t.plain.operations)", "(later (find (may_be_owed t ino mode) t.plain.operations) (filter (may_be_owed t ino mode) t.plain.operations))"),
        (USED, "-- Owing\nunfoldable", "later o [] = o\nlater o (p ∷ ps) = later (Some p) ps\n\n-- Owing\nunfoldable")),
    # Make room.
    third("a dirty page is dropped to make room", f"HardIsHard {ANYTHING}", (
        ROOM, "waiting_for_room o t = record (plainly (keep o) t) { room = t.room + 1 }",
        "waiting_for_room o t = record (plainly (without_first (hopeful t.plain.here.store)) (plainly (keep o) t)) { room = t.room + 1 }\n"
        "without_first [] t = t\n"
        "without_first (v ∷ vs) t = with_store (record t.here.store { pages = record t.here.store.pages { dirty = filter (λ d. not (d.version == v)) t.here.store.pages.dirty } }) t"),
        (ROOM, "ClientState.{ClientSession, Turn, keep}", "ClientState.{ClientSession, Turn, keep, with_store}")),
    third("a change is refused though a page could be written", "FaultsHaveACause", (ROOM, "is_hopeless st = not (nat_lt 0 (length (hopeful st)))", "is_hopeless st = true")),
    # Give locks back.
    third("a lock is given up while dirty", f"DirtyPagesStandAlone {ANYTHING}", (
        USED, MAY_REDUCE, "may_reduce t s ino = not (is_busy t.plain.operations (here t) s ino) && not (owes t.plain.operations t.beside.owed ino)")),
    third("`toomanylocks` is answered though a lock could be given back", "FaultsHaveACause", (
        GIVE, "is_all_stuck t s = nat_le t.limits.locks (locks.count s.locks) && list_all (is_stuck_lock t.plain.here.store) s.locks.rows",
        "is_all_stuck t s = nat_le t.limits.locks (locks.count s.locks)")),
    # Leave.
    third("`left` with a lock", "WhoLeftHasNothing", (LEAVE, UNASKED, "is_unasked (Some s) = not (is_some s.requests.asked)")),
    third("`left` with a wait", "WhoLeftHasNothing", (LEAVE, "is_done t l = is_first_leave (here t) t.plain.operations l && is_unasked (session t)",
          "is_done t l = is_first_leave (here t) t.plain.operations l && (is_unasked (session t) || has_given_all t (session t))\n"
          "has_given_all t None = false\nhas_given_all t (Some s) = is_free s && is_written_out t.plain.here.store")),
    third("a life ends with dirty pages", f"WhoLeavesLosesNothing {ANYTHING}", (LEAVE, "is_written_out st = has_none st.pages.dirty && has_none st.commands", "is_written_out st = true"),
          (USED, MAY_REDUCE, "may_reduce t s ino = true")),
    third("a client leaves though losses were not reported", "WhoLeavesLosesNothing", (
        LEAVE, "take_leave_at op t (Some ino) = say t (says.Unsynced op ino)", "take_leave_at op t (Some ino) = with_leave op t")),
    # Answer while a release waits; take a fresh welcome only; allocate runs.
    third("no answer while a release waits", "DemandsAreSeen", (
        REPLIES, "release_due s ino g t = replies.observe_demand t (replies.release_unheld s ino g) ino g", "release_due s ino g t = replies.demand_as t s ino g NotHeld")),
    third("a stale welcome is taken", "WelcomesAreFresh", (REPLIES, "(stamp.0 + t.config.renew)", "(stamp.0 + t.config.lease)")),
    third("an allocate of 65 pages", "RunsAreShort", (STATE, "\nRUN = 64\n", "\nRUN = 65\n")),
    # Limits.
    third("a client has one more dirty page than it may", "LimitsAreKept", (ROOM, "is_dirty_full t.limits.dirty t.plain", "is_dirty_full (t.limits.dirty + 1) t.plain"),
          (ROOM, "Prelude.{", "Prelude.{◌+◌, ")),
    third("a client has one more clean page than it may", "LimitsAreKept", (LIMITS, "{ most_clean = m.clean }", "{ most_clean = m.clean + 1 }"), (LIMITS, "Prelude.{", "Prelude.{◌+◌, ")),
)
