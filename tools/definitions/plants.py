"""Wrong rules, each a change of the definitions. Each has its name; the promises that may refuse
it, the first of which must; its changes; and what its runs ask, one of ASKS in running.py. A change
names a file of st_rules/specs, a text that occurs there once, and what replaces it."""
from typing import NamedTuple


class Plant(NamedTuple):
    name: str
    promises: str
    changes: tuple
    asks: str = "all"


CUT_FROM = "cut_from t ino from = replied (cut_pages t ino from) bodies.Ack"
REFUSED_CUT = ("Server", CUT_FROM, "cut_from t ino from = replied (cut_pages t ino from) (bodies.Nack why.NotHolder ino 0)")
AGAIN = "request_by t now h body (takes.Again kept) = reply t h kept"
KEPT = "keep_and_reply t h body = reply (with_sessions (sessions.store t.state.sessions (sender h) h.number body) t) h body"
KEPT_OTHER = "keep_and_reply t h body = reply (with_sessions (sessions.store t.state.sessions (sender h) h.number (kept_for body)) t) h body\n"
CHANGED = "name_changed t (Ok d) = replied (with_names d.names t) (bodies.Named (Ino d.ino))"
BEGIN_GRACE = "begin_grace now k = Some (record { start = now; wait = steal_wait k })"
RAISED = "record { 0 = first_after l.epoch + l.grants + 1 }"
TAKE_FROM = "take_from last reply number = if number == last then again reply else take_next last number"
SENT_ANEW = (
    "ClientReplies", "follow_epoch t s epoch = answer_each (is_asked t.here.server) (answers.Uncertain s.epoch.0 epoch.0) (with_session (in_epoch epoch s) t)",
    "use Rattle.st_rules.specs.declared.client.Stage.TheVariants as stages\n"
    "follow_epoch t s epoch = with_operations (map (sent_anew t) t.operations) (with_session (in_epoch epoch s) t)\n"
    "sent_anew t o = if is_asked t.here.server o then at_stage stages.Unsent o else o")

PLANTS = (
    # Cuts.
    Plant("a server truncates a file whenever it grants it exclusively", "CutsAreAsked CutsAreAcknowledged DisksHoldWhatIsHard ReadsReturnLastWrites RefusalsChangeNothing", (
        ("Server", "acquire_by t ino mode (Ok a) = replied (with_locks a.locks t) (verdict_body ino mode a.verdict)",
         "acquire_by t ino modes.X (Ok a) = cut_at_grant (with_locks a.locks t) ino a.verdict\n"
         "acquire_by t ino mode (Ok a) = replied (with_locks a.locks t) (verdict_body ino mode a.verdict)\n"
         "cut_at_grant t ino (verdicts.Granted g held) = replied (cut_pages t ino (page_no 0)) (bodies.Granted ino g held)\n"
         "cut_at_grant t ino verdict = replied t (verdict_body ino modes.X verdict)"),)),
    Plant("a cut is done again when its request comes again", "CutsAreAsked RefusalsChangeNothing", (
        ("Server", AGAIN,
         "request_by t now h (bodies.Cut ino g from) (takes.Again bodies.Ack) = reply (cut_pages t ino from) h bodies.Ack\n"
         "request_by t now h body (takes.Again kept) = reply t h kept"),), "cuts"),
    Plant("a cut takes the whole file, whatever its page", "CutsAreAsked AnswersAreLogged RefusalsChangeNothing", (
        ("Server", CUT_FROM, "cut_from t ino from = replied (cut_pages t ino (page_no 0)) bodies.Ack"),), "cuts"),
    Plant("a cut is done and answered `notholder`", "CutsAreAcknowledged RefusalsChangeNothing", (REFUSED_CUT,), "cuts"),
    Plant("a client answers an acknowledged cut `notholder`", "FaultsHaveACause RefusalsChangeNothing", (
        ("ClientReplies", "answer_each (is_asked t.here.server) answers.Cut t", "answer_each (is_asked t.here.server) answers.NotHolder t"),), "cuts"),
    Plant("a cut is acknowledged and not done", "AnswersAreLogged", (("Server", CUT_FROM, "cut_from t ino from = replied t bodies.Ack"),), "cuts"),
    # Refusals.
    Plant("when a cut is acknowledged, `notholder` is kept as its reply", "RefusalsChangeNothing", (
        ("Server", KEPT, KEPT_OTHER + "kept_for bodies.Ack = bodies.Nack why.NotHolder 0 0\nkept_for body = body"),), "cuts"),
    Plant("when an inode is returned, a refusal is kept as the reply", "RefusalsChangeNothing NamesAnswerTruly NamesChangeOnce", (
        ("Server", KEPT, KEPT_OTHER + "kept_for (bodies.Named (Ino ino)) = bodies.Named (Refused 2)\nkept_for body = body"),), "cuts"),
    Plant("operations that were sent are answered `quiesced`", "RefusalsChangeNothing NamesAnswerTruly NamesChangeOnce CutsAreAsked NamesChangeAsAsked", (
        ("ClientPasses", "quiesce t o = if is_sent o then keep o t else answer o answers.Quiesced t", "quiesce t o = answer o answers.Quiesced t"),), "cuts"),
    Plant("a request with a kept reply is served again", "RefusalsChangeNothing CutsAreAsked NamesAnswerTruly NamesChangeAsAsked NamesChangeOnce", (
        ("Server", AGAIN, "request_by t now h body (takes.Again kept) = serve h (rule t now h body)"),), "cuts"),
    Plant("a cut whose request is given up is answered `quiesced`", "RefusalsChangeNothing NamesAnswerTruly NamesChangeOnce", (
        ("ClientReplies", "(answers.Uncertain s.epoch.0 epoch.0)", "answers.Quiesced"),), "cuts"),
    Plant("a cut that was sent before a lost lease is answered `quiesced`", "RefusalsChangeNothing NamesAnswerTruly NamesChangeOnce", (
        ("Client", "answered t o.op (answers.Uncertain s.epoch.0 0)", "answered t o.op answers.Quiesced"),), "cuts"),
    Plant("a cut is sent again in a new epoch", "RefusalsChangeNothing NamesChangeOnce", (SENT_ANEW,), "cuts"),
    # Losses.
    Plant("lost pages are never reported: a sync always answers `hard`", "LossesAreTold", (
        ("Client", "if pages.has_lost t.here.lost f.ino then tell_lost t op f.ino else enqueue t op ask", "enqueue t op ask"),
        ("Client", "end_sync t o f = if pages.has_lost t.here.lost f.ino then tell_lost t o.op f.ino else answered t o.op answers.Quiesced",
         "end_sync t o f = answered t o.op answers.Quiesced"))),
    Plant("lost pages are not reported to a new sync", "LossesAreTold", (
        ("Client", "if pages.has_lost t.here.lost f.ino then tell_lost t op f.ino else enqueue t op ask", "enqueue t op ask"),)),
    Plant("`hard` for ever: every sync is answered so at once", "HardIsHard", (
        ("ClientPasses", "sync t o f = if pages.is_hard t.here.store f.ino then answer o answers.Hard t else keep o t", "sync t o f = answer o answers.Hard t"),)),
    # Disks and faults.
    Plant("the disks carry zeros under `hard`, and no read from the disks is answered", "DisksHoldWhatIsHard", (
        ("Disks", "with_block (record { at = at; tag = tag; bytes = bytes })", "with_block (record { at = at; tag = tag; bytes = filled 0 })"),
        ("Disks", "-- Sample: the block that a read found.\n", "use Rattle.st_base.specs.Page.{filled}\n"),
        ("Client", "filled_by t c (Some block) = with_filled c (pages.found t.here.store.extents (file_of_command t c) c.page block.0 block.1) t",
         "filled_by t c (Some block) = t"))),
    Plant("reads answer `diskfault` without a failed report", "FaultsHaveACause", (
        ("ClientPasses", "read_known t o f p e (Some m) = fetch t o f p", "read_known t o f p e (Some m) = answer o (answers.DiskFault 1) t"),)),
    Plant("a client answers `opsfull` at two operations", "FaultsHaveACause", (("Client", "is_full c = nat_le 16 (length c.operations)", "is_full c = nat_le 2 (length c.operations)"),)),
    # Counts.
    Plant("a theft is counted twice", "TheCountsAreTrue", (("Events", "stolen = w.tally.stolen + 1", "stolen = w.tally.stolen + 2"),)),
    Plant("a read is not counted", "TheCountsAreTrue", (("Events", "reads_in (answers.Read bytes) = 1", "reads_in (answers.Read bytes) = 0"),)),
    Plant("a message is sent without its line in the report", "TheCountsAreTrue LeasesAreDatedFromRequests CutsAreAcknowledged", (
        ("Events", "sends sc m = observe (with_message m sc.world) sc (seen.Sent (length sc.world.net.messages + 1) m)", "sends sc m = world_turn (with_message m sc.world) sc.seen"),)),
    Plant("a dropped entry is reported as hard", "TheReportTellsTheLog TheCountsAreTrue", (
        ("Events", "fate_seen number fates.Pending (fates.Gone cause) = seen.Dropped number cause ∷ []",
         "fate_seen number fates.Pending (fates.Gone cause) = seen.Hardened number ∷ []"),)),
    Plant("what a crash drops is reported as failed", "DropsHaveACause", (("Events", "(log.always causes.Crash)", "(log.always (causes.Failed 1))"),)),
    # Answers.
    Plant("what is answered `quiesced` stays pending", "AsksAreAnsweredOnce CutsAreAsked NamesAnswerTruly NamesChangeAsAsked NamesChangeOnce RefusalsChangeNothing", (
        ("ClientPasses", "quiesce t o = if is_sent o then keep o t else answer o answers.Quiesced t",
         "quiesce t o = if is_sent o then keep o t else keep o (answer o answers.Quiesced t)"),)),
    # Grant numbers.
    Plant("shared grants do not raise the number", "GrantNumbersAreGivenOnce", (
        ("Locks", "grant l c life ino mode = record l { grants = l.grants + 1;",
         "grant l c life ino modes.S = record l { rows = with_row (new_row l c life ino modes.S) l.rows; waiters = without_wait c ino l.waiters }\n"
         "grant l c life ino mode = record l { grants = l.grants + 1;"),)),
    Plant("grants never raise the number", "GrantNumbersAreGivenOnce ChangesGoInTheOrderOfLocks", (
        ("Locks", "grant l c life ino mode = record l { grants = l.grants + 1;", "grant l c life ino mode = record l {"),)),
    Plant("each epoch begins with the same numbers", "GrantNumbersAreGivenOnce GrantNumbersRise ChangesGoInTheOrderOfLocks", (
        ("Locks", RAISED, "record { 0 = 2 ^ 32 + l.grants + 1 }"),)),
    Plant("grant numbers fall", "GrantNumbersRise ChangesGoInTheOrderOfLocks", (("Locks", RAISED, "record { 0 = first_after l.epoch + (1000000 - l.grants) }"),)),
    # Names.
    Plant("a look-up finds an inode that never was", "NamesAnswerTruly", (
        ("Server", "name_found t (Ok ino) = replied t (bodies.Named (Ino ino))", "name_found t (Ok ino) = replied t (bodies.Named (Ino (ino + 1000)))"),), "names"),
    Plant("names are listed as they were at the start", "NamesAnswerTruly", (("Server", "(names.list t.state.stable.names dir after)", "(names.list names.fresh_names dir after)"),), "names"),
    Plant("a look-up uses the names at the start", "NamesAnswerTruly", (
        ("Server", "name_found t (names.lookup t.state.stable.names dir n)", "name_found t (names.lookup names.fresh_names dir n)"),), "names"),
    Plant("a client takes the reply of an older request", "NamesAnswerTruly NamesChangeOnce AnswersAreLogged FaultsHaveACause LeasesAreDatedFromRequests", (
        ("ClientReplies", "is_counting number reply q = is_request_of number q && fits reply q.body", "is_counting number reply q = fits reply q.body"),), "names"),
    Plant("an ask whose request is given up is answered as refused", "NamesAnswerTruly NamesChangeOnce RefusalsChangeNothing", (
        ("ClientReplies", "(answers.Uncertain s.epoch.0 epoch.0)", "(answers.Refused 1)"),), "names"),
    Plant("an ask that was sent before a lost lease is answered as refused", "NamesAnswerTruly NamesChangeOnce FaultsHaveACause RefusalsChangeNothing", (
        ("Client", "answered t o.op (answers.Uncertain s.epoch.0 0)", "answered t o.op (answers.Refused 1)"),), "names"),
    Plant("a client answers all its asks for names by one reply", "NamesAnswerTruly NamesChangeOnce RefusalsChangeNothing", (
        ("ClientReplies", "named_as (answer_each (is_asked t.here.server) (name_answer reply) t) s file reply",
         "named_as (answer_each (asks_name t.here.server) (name_answer reply) t) s file reply\n"
         "use Rattle.st_messages.specs.declared.ask.Ask.TheVariants as asks\n"
         "asks_name s o = asks_name_at s o.ask\n"
         "asks_name_at s (asks.Name t ask) = t.0 == s.0\n"
         "asks_name_at s ask = false"),), "names"),
    Plant("a change of names is answered and not done", "NamesAnswerTruly NamesChangeOnce", (("Server", CHANGED, "name_changed t (Ok d) = replied t (bodies.Named (Ino d.ino))"),), "names"),
    Plant("a removal of a file is answered and not done", "NamesAnswerTruly NamesChangeOnce", (
        ("Server", "remove_by t (Ok d) = replied (cut_whole (with_names d.names t) d.ino)", "remove_by t (Ok d) = replied (cut_whole t d.ino)"),), "names"),
    Plant("a change of names is done and answered as refused", "NamesAnswerTruly NamesChangeOnce", (
        ("Server", CHANGED, "name_changed t (Ok d) = replied (with_names d.names t) (bodies.Named (Refused 2))"),), "names"),
    Plant("a rename goes the other way", "NamesAnswerTruly NamesChangeAsAsked NamesChangeOnce", (
        ("Server", "(names.rename t.state.stable.names dir n dir2 n2)", "(names.rename t.state.stable.names dir2 n2 dir n)"),), "names"),
    Plant("a directory is made as a file", "NamesAnswerTruly NamesChangeAsAsked NamesChangeOnce", (
        ("Server", "(names.mkdir t.state.stable.names dir n)", "(names.create t.state.stable.names dir n)"),), "names"),
    Plant("a crash forgets the names", "NamesChangeAsAsked NamesChangeOnce", (
        ("Server", "crash s =\n    record s {", "crash s =\n    record s {\n      stable = record s.stable { names = names.fresh_names };"),), "names"),
    Plant("a server takes an inode number at each start", "NamesChangeAsAsked NamesChangeOnce", (
        ("Server", "stable = record s.stable { epoch = epoch };", "stable = record s.stable { epoch = epoch; names = record s.stable.names { next = s.stable.names.next + 1 } };"),), "names"),
    Plant("an older request is served again", "NamesChangeAsAsked NamesChangeOnce CutsAreAsked RefusalsChangeNothing", (
        ("Sessions", "take_number last reply number = if nat_lt number last then Stale", "take_number last reply number = if nat_lt number last then Fresh"),), "names"),
    Plant("an ask is sent again in a new epoch", "NamesChangeOnce RefusalsChangeNothing", (SENT_ANEW,), "names"),
    Plant("a request that comes again is served again", "NamesChangeOnce NamesChangeAsAsked NamesAnswerTruly CutsAreAsked RefusalsChangeNothing", (
        ("Sessions", TAKE_FROM, "take_from last reply number = if number == last then Fresh else take_next last number"),), "names"),
    # Leases, timers and grace.
    Plant("a theft comes one tick early", "TheftsComeLate DirtyPagesStandAlone ReadsReturnLastWrites", (
        ("Authority", "is_over wait now s = nat_le (s.start.0 + wait) now.0", "is_over wait now s = nat_le (s.start.0 + wait) (now.0 + 1)"),)),
    Plant("the steal wait is only the lease", "TheftsComeLate GraceWaits DirtyPagesStandAlone ReadsReturnLastWrites", (
        ("Leases", "div_ceil (k.lease * k.num + k.den * k.grain) k.den", "k.lease"),)),
    Plant("the steal wait leaves out the grain", "TheftsComeLate GraceWaits DirtyPagesStandAlone ReadsReturnLastWrites", (
        ("Leases", "div_ceil (k.lease * k.num + k.den * k.grain) k.den", "div_ceil (k.lease * k.num) k.den"),)),
    Plant("a server has no grace", "TheHistoryIsTheWorlds GraceWaits DirtyPagesStandAlone", (
        ("Grace", BEGIN_GRACE, "begin_grace now k = None"),)),
    Plant("a grace begins one tick late", "TheHistoryIsTheWorlds", (
        ("Grace", BEGIN_GRACE, "begin_grace now k = Some (record { start = record { 0 = now.0 + 1 }; wait = steal_wait k })"),)),
    Plant("a timer begins one tick late", "TheHistoryIsTheWorlds", (
        ("Authority", "new_suspect c now = record { client = c; start = now }", "new_suspect c now = record { client = c; start = record { 0 = now.0 + 1 } }"),)),
    Plant("a timer that runs begins anew at each tick", "TheHistoryIsTheWorlds", (
        ("Authority", "suspect a c now = if may_ack a c then start_timer a c now else a",
         "use Rattle.st_rules.specs.Keys.{put}\n"
         "suspect a c now = record a { suspects = put (is_suspect c) (new_suspect c now) a.suspects }"),
        ("Server", "suspect_unless t now c = if authority.may_ack t.state.authority c then suspect_client t now c else t", "suspect_unless t now c = suspect_client t now c"))),
    Plant("grace is one tick short", "GraceWaits", (("Grace", "nat_lt now.0 (g.start.0 + g.wait)", "nat_lt (now.0 + 1) (g.start.0 + g.wait)"),)),
    Plant("a server grants in grace", "DirtyPagesStandAlone ReadsReturnLastWrites ChangesAreLocked NoConflictIsSent ChangesGoInTheOrderOfLocks", (
        ("Server", "grants_now t now = not (in_grace t now)", "grants_now t now = true"),)),
    Plant("a lease is dated from the welcome", "LeasesAreDatedFromRequests TheftsComeLate", (
        ("ClientReplies", "welcome t now (record { 0 = h.epoch }) (record { 0 = h.stamp })", "welcome t now (record { 0 = h.epoch }) now"),)),
    Plant("a lease is dated from a reply", "LeasesAreDatedFromRequests TheftsComeLate", (
        ("ClientReplies", "counted t s now h.number (record { 0 = h.stamp }) reply s.requests.asked", "counted t s now h.number now reply s.requests.asked"),)),
    Plant("a timer runs on after the theft", "TheHistoryIsTheWorlds", (
        ("Authority", "still_running a now = record a { suspects = filter (λ s. not (is_over a.wait now s)) a.suspects }", "still_running a now = a"),)),
    Plant("shared locks conflict when they are reasserted", "NoConflictIsSent", (("Locks", "(holder_against l c row.0 row.2)", "(holder_against l c row.0 modes.X)"),)),
    # Locks and pages.
    Plant("a server grants over a conflict", "DirtyPagesStandAlone ReadsReturnLastWrites ChangesAreLocked ChangesGoInTheOrderOfLocks NoConflictIsSent", (
        ("Locks", "if list_any (stands_against w.client w.ino w.mode) l.rows then None else Some w", "Some w"),)),
    Plant("a new life replaces one with locks", "DirtyPagesStandAlone ReadsReturnLastWrites ChangesAreLocked ChangesGoInTheOrderOfLocks HardStaysHard", (
        ("Sessions", "hello_higher t c life rows = if rows then greeted hellos.Wait t else begin_session hellos.Replaced c life t",
         "hello_higher t c life rows = begin_session hellos.Replaced c life t"),)),
    Plant("clean pages are kept at an expiry", "ReadsReturnLastWrites ExpiredLeasesEmptyClients", (
        ("Client", "session = None; store = empty_store; lost = a.lost }",
         "session = None; store = record empty_store { pages = record pages.no_pages { clean = a.store.pages.clean } }; lost = a.lost }"),)),
    Plant("clean pages are kept at a release", "ReadsReturnLastWrites DisksHoldWhatIsHard", (
        ("ClientPasses", "forgotten_at ino modes.None st = pages.forget_from st ino (page_no 0)", "forgotten_at ino modes.None st = st"),)),
    Plant("clean pages are kept at a release, and read without a lock", "ReadsReturnLastWrites DisksHoldWhatIsHard", (
        ("ClientPasses", "forgotten_at ino modes.None st = pages.forget_from st ino (page_no 0)", "forgotten_at ino modes.None st = st"),
        ("ClientPasses", "read t s o f p = if holds s modes.S f then", "read t s o f p = if holds s modes.None f then"))),
    Plant("a client writes with a shared lock", "ChangesAreLocked DirtyPagesStandAlone ReadsReturnLastWrites ChangesGoInTheOrderOfLocks DropsHaveACause", (
        ("ClientPasses", "may_write t s f p = holds s modes.X f", "may_write t s f p = holds s modes.S f"),)),
    Plant("a lock is released with dirty pages", "DirtyPagesStandAlone ReadsReturnLastWrites DropsHaveACause", (
        ("ClientPasses", "may_reduce t s ino = pages.is_idle t.here.store ino && not (is_busy t.operations t.here.server s ino)",
         "may_reduce t s ino = not (is_busy t.operations t.here.server s ino)"),)),
    Plant("a sync is `hard` while pages are dirty", "HardIsHard", (
        ("ClientPages", "is_hard st ino = not (has_dirty st.pages ino) && not (has_write_on st.commands ino)", "is_hard st ino = not (has_write_on st.commands ino)"),)),
    Plant("a changed page is hard by its older write", "HardIsHard ReadsReturnLastWrites DropsHaveACause", (
        ("ClientPages", "write_ended version now = if version == now then Hard else Redirty", "write_ended version now = Hard"),)),
    Plant("the birth of a block is ignored", "ReadsReturnLastWrites", (
        ("ClientPages", "same_file tag.file f && (same_page tag.page p && (tag.birth == m.birth))", "same_file tag.file f && same_page tag.page p"),)),
    Plant("a page is read as zeros while it isn't known where it lies", "ReadsReturnLastWrites", (
        ("ClientPasses", "read_uncached t o f p None = keep o t", "read_uncached t o f p None = answer o (answers.Read (filled 0)) t"),)),
    Plant("a patch is over zeros", "ReadsReturnLastWrites DisksHoldWhatIsHard", (
        ("ClientPasses", "patch_at t o f p at bytes None = fetch t o f p", "patch_at t o f p at bytes None = patch_bytes t o f p at bytes (filled 0)"),)),
    # The log.
    Plant("one entry hardens without the earlier ones", "HardIsHard DisksHoldWhatIsHard DropsHaveACause", (
        ("FlatLog", "if nat_le number index && same_owner e.of o then harder_entry e else e", "if (number == index) && same_owner e.of o then harder_entry e else e"),)),
    Plant("a crash spares nothing", "DisksHoldWhatIsHard HardIsHard DropsHaveACause ReadsReturnLastWrites", (
        ("Events", "is_of_crashed w c number o = log.is_of_client c o && not (is_spared w number o)", "is_of_crashed w c number o = log.is_of_client c o"),)),
    Plant("a hard entry is dropped", "HardStaysHard DropsHaveACause TheReportTellsTheLog DisksHoldWhatIsHard TheCountsAreTrue ReadsReturnLastWrites", (("FlatLog", "lost cause Hard = Hard", "lost cause Hard = Gone cause"),)),
    # Old messages.
    Plant("a client receives messages of other lives", "OldMessagesChangeNoClient", (
        ("ClientReplies", "(h.from == server_node t.here.server) && ((h.life == t.here.life.0) && nat_le h.stamp now.0)",
         "(h.from == server_node t.here.server) && nat_le h.stamp now.0"),)),
    Plant("a client receives messages of other epochs", "OldMessagesChangeNoClient", (
        ("ClientReplies", "with_a_session t s now h body = if h.epoch == s.epoch.0 then of_epoch t s now h body else",
         "with_a_session t s now h body = if nat_le s.epoch.0 h.epoch then of_epoch t s now h body else"),)),
    Plant("a server serves other epochs", "OldMessagesChangeNoServer", (
        ("Server", "demand_seen t h ino g = if is_served t h then observe_demand t h ino g else t", "demand_seen t h ino g = observe_demand t h ino g"),)),
    Plant("a server serves past lives", "OldMessagesChangeNoServer", (
        ("Sessions", "take_past s life number = if nat_lt life.0 s.life.0 then Stale else take_state s.state number", "take_past s life number = take_state s.state number"),)),
)
