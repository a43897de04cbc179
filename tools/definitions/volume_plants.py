"""Wrong machines that users could see, in the form of plants.py: the volume by itself must refuse
each. `Accepted` is that the volume takes the steps of a run, and that these show what is seen of it
(st_laws_volume/specs/Witness.antt)."""
from plants import PLANTS as OTHERS, Plant

A = "Accepted"
SYNC = "sync t o f = if pages.is_hard t.here.store f.ino then answer o answers.Hard t else keep o t"
NAMES_CHANGED = "name_changed t (Ok d) = replied (with_names d.names t) (bodies.Named (Ino d.ino))"
RENAMED = "rename_entry n dir name dir2 name2 e = if is_some (entry_at n dir2 name2) then Err Exists else rename_free n dir name dir2 name2 e"
LOSE = "lose_session t s = empty_here (end_operations (with_lost_pages t.here.store (note t (notes.Lost t.here.server t.here.life))) s)"
REMOVE_FILE = "remove_file t h dir name g ino = if holds t h ino g modes.X then remove_by t (names.remove t.state.stable.names dir name) else not_holder t ino g"
FILLED = "filled_by t c (Some block) = with_filled c (pages.found t.here.store.extents (file_of_command t c) c.page block.0 block.1) t"
WROTE = "(seen.Wrote (length sc.world.log + 1) c f p bytes)"

# Machines that keep all promises of st_promises.
PASSING = (
    Plant("a lease is lost without its line, and its dirty pages are not told", A, (
        ("Client", LOSE, "lose_session t s = empty_here (end_operations (note t (notes.Lost t.here.server t.here.life)) s)"),
        ("Events", "loses sc c before s life = observe (with_ended (life_over c s life (client.lease_end_with before s)) sc.world) sc (seen.Lost c s life)",
         "loses sc c before s life = world_turn (with_ended (life_over c s life (client.lease_end_with before s)) sc.world) sc.seen"))),
    Plant("a page whose write failed is clean, and not told as lost", A, (
        ("Client", "failed_as t c (Write version) = answer_each (waits_for_write t c) (answers.DiskFault c.number) (mark_failed t c version)",
         "failed_as t c (Write version) = if is_present t c version then with_commands (t.here.store.commands ++ c ∷ []) (hardened t c) else t"),)),
    Plant("a sync of dirty pages begins a new life and is `hard`", A, (
        ("ClientPasses", SYNC,
         "sync t o f = if pages.is_hard t.here.store f.ino then answer o answers.Hard t else abandon t o t.here.store.commands\n"
         "abandon t o [] = answer o answers.Hard (record t { here = record t.here { life = record { 0 = t.here.life.0 + 1 }; greeting = None; session = None; store = pages.empty_store } })\n"
         "abandon t o (c ∷ cs) = keep o t"),
        ("Events", "is_of_crashed w c number o = log.is_of_client c o && not (is_spared w number o)",
         "is_of_crashed w c number o = log.is_of_client c o && (not (is_spared w number o) && ((present_life w c o.file.server).0 == o.life.0))"),
        ("Client", FILLED, "filled_by t c (Some block) = t"))),
    Plant("all new files have one inode", A, (("Names", "new_entry n dir name directory ∷ []; next = n.next + 1 }", "new_entry n dir name directory ∷ []; next = n.next }"),), "names"),
    Plant("a rename onto another file loses that file", A, (
        ("Names", RENAMED, "rename_entry n dir name dir2 name2 e = rename_free (record n { entries = filter (λ d. not (is_entry_at dir2 name2 d)) n.entries }) dir name dir2 name2 e"),), "names"),
    Plant("a directory is removed with what is in it", A, (("Names", "is_full n e = e.directory && has_entries n e.ino", "is_full n e = false"),), "names"),
    Plant("a directory comes under itself", A, (("Names", "comes_under_itself n dir2 e = e.directory && is_under n e.ino dir2", "comes_under_itself n dir2 e = false"),), "names"),
    Plant("a look-up finds nothing", A, (("Names", "ino_of (Some e) = Ok e.ino", "ino_of (Some e) = Err NoEntry"),), "names"),
    Plant("a listing has one entry", A, (("Names", "(take 256 (by_name", "(take 1 (by_name"),), "names"),
    Plant("a patch goes to the front of its page", A, (("FlatLog", "overlay at bytes page = take at page ++ (bytes ++ drop (at + length bytes) page)", "overlay at bytes page = bytes ++ drop (length bytes) page"),)),
    Plant("a remove takes another file, without its lock", A, (
        ("Server", REMOVE_FILE, "remove_file t h dir name g ino = if holds t h ino g modes.X then remove_by t (names.remove t.state.stable.names dir name) else "
         "name_changed t (names.remove t.state.stable.names dir name)"),), "names"),
    Plant("a server has no space for anybody", A, (("Server", "(extents.allocate t.state.stable.extents (file t ino) page count)", "(Err (wants.NoSpace 0 count))"),)),
    Plant("a server claims that a file doesn't exist", A, (("Server", "acquire t now h ino mode = if is_file t ino then", "acquire t now h ino mode = if is_file t ino && not (ino == 3) then"),)),
    Plant("a client answers `nospace` for `nofile`", A, (("ClientReplies", "refuse_as t why.NoFile a b file asked = refuse_file t answers.NoFile file", "refuse_as t why.NoFile a b file asked = refuse_file t (answers.NoSpace 7 7) file"),)),
    Plant("a client answers `nofile` for `nospace`", A, (
        ("ClientReplies", "refuse_as t why.NoSpace a b file asked = refuse_page t (answers.NoSpace a b) file (page_asked asked)",
         "refuse_as t why.NoSpace a b file asked = refuse_page t answers.NoFile file (page_asked asked)"),)),
)

# More wrong answers.
ANSWERS = (
    Plant("a client answers `nofile` to all asks for names", A, (
        ("Client", "app t op ask = if is_full t.state then answered_at_once t op answers.OpsFull else app_known t op ask",
         "app t op (asks.Name s ask) = answered_at_once t op answers.NoFile\napp t op ask = if is_full t.state then answered_at_once t op answers.OpsFull else app_known t op ask"),), "names"),
    Plant("a client answers `toomanylocks` for `nofile`", A, (("ClientReplies", "refuse_file t answers.NoFile file", "refuse_file t answers.TooManyLocks file"),)),
    Plant("a client answers `notholder` for `nofile`", A, (("ClientReplies", "refuse_file t answers.NoFile file", "refuse_file t answers.NotHolder file"),)),
    Plant("a client answers `dirtyfull` for `nofile`", A, (("ClientReplies", "refuse_file t answers.NoFile file", "refuse_file t answers.DirtyFull file"),)),
    Plant("a client answers `opsfull` for `nofile`", A, (("ClientReplies", "refuse_file t answers.NoFile file", "refuse_file t answers.OpsFull file"),)),
    Plant("a client answers `uncertain` to a read of no file", A, (("ClientReplies", "refuse_file t answers.NoFile file", "refuse_file t (answers.Uncertain 1 2) file"),)),
    Plant("`uncertain` tells epochs that never were", A, (("ClientReplies", "(answers.Uncertain s.epoch.0 epoch.0)", "(answers.Uncertain s.epoch.0 (epoch.0 + 1))"),), "cuts"),
    Plant("`uncertain` tells the new epoch twice", A, (("ClientReplies", "(answers.Uncertain s.epoch.0 epoch.0)", "(answers.Uncertain epoch.0 epoch.0)"),), "cuts"),
    Plant("`uncertain` of a lost lease tells epoch 0", A, (("Client", "(answers.Uncertain s.epoch.0 0)", "(answers.Uncertain 0 0)"),), "cuts"),
    Plant("`lost` tells one page of several", A, (("ClientPages", "told_rows lost ino = map lost_row (take 1024 (lost_on lost ino))", "told_rows lost ino = map lost_row (take 1 (lost_on lost ino))"),)),
    Plant("`lost` tells no command", A, (("ClientPages", "lost_command (Some failed) write = failed", "lost_command (Some failed) write = 0"),)),
    Plant("`lost` tells the pages twice", A, (("ClientPages", "untold lost ino = filter (λ r. not (is_lost_on ino r)) lost ++ drop 1024 (lost_on lost ino)", "untold lost ino = lost"),)),
    Plant("`lost` tells the pages in no order", A, (("ClientPages", "lost_on lost ino = filter_map (lost_at lost ino) (rising (map page_of_lost (filter (is_lost_on ino) lost)))", "lost_on lost ino = filter (is_lost_on ino) lost"),)),
    Plant("a failed read is answered with zeros", A, (
        ("Client", "failed_as t c Read = answer_each (waits_for_read t c) (answers.DiskFault c.number) t", "use Rattle.st_base.specs.Page.{filled}\nfailed_as t c Read = answer_each (waits_for_read t c) (answers.Read (filled 0)) t"),)),
    Plant("`diskfault` names the next command", A, (("Client", "failed_as t c Read = answer_each (waits_for_read t c) (answers.DiskFault c.number) t", "failed_as t c Read = answer_each (waits_for_read t c) (answers.DiskFault (c.number + 1)) t"),)),
    Plant("a failed write fails the reads of its page", A, (
        ("Client", "answer_each (waits_for_write t c) (answers.DiskFault c.number) (mark_failed t c version)", "answer_each (waits_for_read t c) (answers.DiskFault c.number) (mark_failed t c version)"),)),
    Plant("two pages may be dirty, no more", A, (("ClientPages", "nat_le 64 (length (without_dirty ino p ps.dirty))", "nat_le 2 (length (without_dirty ino p ps.dirty))"),)),
    Plant("a sync of dirty pages is answered `quiesced`", A, (
        ("ClientPasses", SYNC, "sync t o f = if pages.is_hard t.here.store f.ino then answer o answers.Hard t else answer o answers.Quiesced t"),)),
    Plant("an ask is answered as another one of its client", A, (("Events", "observe (with_read answer sc.world) sc (seen.Answered c op answer)", "observe (with_read answer sc.world) sc (seen.Answered c (op + 1) answer)"),)),
    Plant("a created file is reported as the next one", A, (("Server", NAMES_CHANGED, "name_changed t (Ok d) = replied (with_names d.names t) (bodies.Named (Ino (d.ino + 1)))"),), "names"),
)

# More wrong effects.
EFFECTS = (
    Plant("a client serves its operations last first", A, (
        ("ClientPasses", "operations now t = operate_each t.operations now t.operations (with_operations [] t)",
         "operations now t = reordered (operate_each t.operations now (turned t.operations) (with_operations [] t))\n"
         "reordered t = with_operations (turned t.operations) t\nturned [] = []\nturned (o ∷ os) = turned os ++ o ∷ []"),
        ("ClientPasses", "List, [], ◌∷◌, Option", "List, [], ◌∷◌, ◌++◌, Option"))),
    Plant("a client asks for its last operation first", A, (
        ("ClientPasses", "first_asking t s now (o ∷ os) = asks_or o os (first_asking t s now os) (asked_by t s now o)",
         "first_asking t s now (o ∷ os) = later_or o os (first_asking t s now os) (asked_by t s now o)\n"
         "later_or o os (Some a) wanted = behind o (Some a)\nlater_or o os None wanted = asks_or o os None wanted"),), "names"),
    Plant("a cut keeps its first page", A, (
        ("Server", "cut_from t ino from = replied (cut_pages t ino from) bodies.Ack", "cut_from t ino from = replied (cut_pages t ino (record { 0 = from.0 + 1 })) bodies.Ack"),), "cuts"),
    Plant("a cut is logged and its pages stay", A, (
        ("Server", "cut_pages t ino from = note (with_extents (extents.release_from t.state.stable.extents (file t ino) from) t)", "cut_pages t ino from = note t"),), "cuts"),
    Plant("a remove leaves the pages of its file, without a line", A, (
        ("Server", "remove_by t (Ok d) = replied (cut_whole (with_names d.names t) d.ino)", "remove_by t (Ok d) = replied (with_names d.names t)"),), "names"),
    Plant("a server crash brings back the names of the start", A, (("Server", "crash s =\n    record s {", "crash s =\n    record s {\n      stable = record s.stable { names = names.fresh_names };"),), "names"),
    Plant("a file is created in the root, wherever it was asked", A, (("Server", "(names.create t.state.stable.names dir n)", "(names.create t.state.stable.names 1 n)"),), "names"),
    Plant("a rename keeps the old name", A, (("Names", RENAMED, "rename_entry n dir name dir2 name2 e = if is_some (entry_at n dir2 name2) then Err Exists else rename_free n dir name dir2 name e"),), "names"),
    Plant("the line of a write names another client", A, (("Events", WROTE, "(seen.Wrote (length sc.world.log + 1) (record { 0 = c.0 + 1 }) f p bytes)"),)),
    Plant("the line of a write has other bytes", A, (("Events", WROTE, "(seen.Wrote (length sc.world.log + 1) c f p (filled 0))"), ("Events", "use Rattle.st_base.specs.declared.disk.Tag.{Tag}\n", "use Rattle.st_base.specs.declared.disk.Tag.{Tag}\nuse Rattle.st_base.specs.Page.{filled}\n"))),
    Plant("an effect hardens the entries of all pages of the client", A, (
        ("FlatLog", "if nat_le number index && same_owner e.of o then harder_entry e else e", "if same_client e.of.client o.client then harder_entry e else e"),)),
    Plant("what is lost is reported with another command", A, (("Events", "causes.Failed (last_write cs (owner_in e f p))", "causes.Failed (1 + last_write cs (owner_in e f p))"),)),
)

# Machines by which users lose or misread bytes.
BYTES = (
    Plant("pages that were dropped with a lease are read again", A, (
        ("Client", "session = None; store = empty_store; lost = a.lost }", "session = None; store = record empty_store { pages = record pages.no_pages { clean = map clean_again a.store.pages.dirty } }; lost = a.lost }"),
        ("Client", "-- all else is emptied\n", "use Rattle.st_rules.specs.declared.pages.DirtyPage.{DirtyPage}\nuse Rattle.st_rules.specs.declared.client.CleanPage.{CleanPage}\n"
         "clean_again : DirtyPage → CleanPage\nclean_again d = pages.clean_page d.ino d.page d.bytes\n"))),
    Plant("a page is read as the next page", A, (
        ("ClientPasses", "if holds s modes.S f then read_at t o f p (pages.cached t.here.store.pages f.ino p)", "if holds s modes.S f then read_at t o f p (pages.cached t.here.store.pages f.ino (page_no (p.0 + 1)))"),)),
    Plant("a write has no line", A, (("ClientPasses", "change t o f p n ps = answer o answers.Written (with_pages_changed ps f.ino p (note t n))", "change t o f p n ps = answer o answers.Written (with_pages_changed ps f.ino p t)"),)),
    Plant("a write is answered before it takes effect", A, (
        ("ClientPasses", "change t o f p n ps = answer o answers.Written (with_pages_changed ps f.ino p (note t n))", "change t o f p n ps = with_pages_changed ps f.ino p (note (answer o answers.Written t) n)"),)),
    Plant("a write is answered and never done", A, (
        ("ClientPasses", "change t o f p n ps = answer o answers.Written (with_pages_changed ps f.ino p (note t n))", "change t o f p n ps = answer o answers.Written (note t n)"),)),
    Plant("the line of a patch has the next place", A, (("Events", "(seen.Patched (length sc.world.log + 1) c f p at bytes)", "(seen.Patched (length sc.world.log + 1) c f p (at + 1) bytes)"),)),
    Plant("the first entry has number 0", A, (("Events", WROTE, "(seen.Wrote (length sc.world.log) c f p bytes)"),)),
    Plant("a sync is `hard` while a write is under way", A, (
        ("ClientPages", "is_hard st ino = not (has_dirty st.pages ino) && not (has_write_on st.commands ino)",
         "is_hard st ino = not (list_any (λ d. is_dirty_on ino d && not (is_being_written st.commands d.ino d.page)) st.pages.dirty)"),)),
    Plant("a sync looks at the next file", A, (("ClientPasses", "sync t o f = if pages.is_hard t.here.store f.ino then", "sync t o f = if pages.is_hard t.here.store (f.ino + 1) then"),)),
    Plant("a page is clean as its write is submitted", A, (
        ("ClientPasses", "submit_write t d m =\n    submit_command t", "submit_write t d m =\n    submit_command (with_store (record t.here.store { pages = pages.harden t.here.store.pages d.ino d.page }) t)"),)),
    Plant("what a client of another number wrote is dropped with a client", A, (
        ("Events", "is_of_crashed w c number o = log.is_of_client c o && not (is_spared w number o)", "is_of_crashed w c number o = not (log.is_of_client c o) && not (is_spared w number o)"),)),
    Plant("what a crash drops is reported as failed by a command that never was", A, (("Events", "(log.always causes.Crash)", "(log.always (causes.Failed 999999))"),)),
    Plant("an entry is hard as its write is reported failed", A, (
        ("Events", "reports_of w k ok = tells (with_disks (disks_after w.disks (disks.done w.disks k ok)) w) k ok (issued_of w k)",
         "reports_of w k false = after_marks k (marks w (log_hard w.log (carried_by (issued_of w k))))\n"
         "reports_of w k ok = told_after k ok w\n"
         "after_marks k sc = record (told_after k false sc.world) { seen = sc.seen ++ (told_after k false sc.world).seen }\n"
         "told_after k ok w = tells (with_disks (disks_after w.disks (disks.done w.disks k ok)) w) k ok (issued_of w k)"),)),
)

# Machines that tell losses wrong.
LOSSES = (
    Plant("`lost` names the page after the one that is lost", A, (("ClientPages", "lost_row r = record { page = r.page; command = r.command }", "lost_row r = record { page = page_no (r.page.0 + 1); command = r.command }"),)),
    Plant("`lost` names the command after the one that failed", A, (("ClientPages", "lost_row r = record { page = r.page; command = r.command }", "lost_row r = record { page = r.page; command = r.command + 1 }"),)),
    Plant("a sync is `quiesced` at a lost lease, whatever is lost", A, (
        ("Client", "end_sync t o f = if pages.has_lost t.here.lost f.ino then tell_lost t o.op f.ino else answered t o.op answers.Quiesced", "end_sync t o f = answered t o.op answers.Quiesced"),)),
    Plant("a sync is told the losses of the next file", A, (
        ("Client", "tell_lost t op ino = answered (with_lost_rows (pages.untold t.here.lost ino) t) op (answers.Lost (pages.told_rows t.here.lost ino))",
         "tell_lost t op ino = answered (with_lost_rows (pages.untold t.here.lost ino) t) op (answers.Lost (pages.told_rows t.here.lost (ino + 1)))"),)),
    Plant("a loss is answered `hard`", A, (
        ("Client", "tell_lost t op ino = answered (with_lost_rows (pages.untold t.here.lost ino) t) op (answers.Lost (pages.told_rows t.here.lost ino))",
         "tell_lost t op ino = answered (with_lost_rows (pages.untold t.here.lost ino) t) op answers.Hard"),)),
    Plant("a loss is answered with an empty `lost`", A, (("ClientPages", "told_rows lost ino = map lost_row (take 1024 (lost_on lost ino))", "told_rows lost ino = []"),)),
    Plant("a client that starts again has forgotten its losses, and so has one that lost its lease", A, (
        ("Client", "session = None; store = empty_store; lost = a.lost }", "session = None; store = empty_store; lost = [] }"),)),
)

# Machines that mix up asks.
ASKS = (
    Plant("an answer goes to the next client", A, (("Events", "observe (with_read answer sc.world) sc (seen.Answered c op answer)", "observe (with_read answer sc.world) sc (seen.Answered (record { 0 = c.0 + 1 }) op answer)"),)),
    Plant("an ask is answered twice", A, (
        ("Events", "client_says sc c before (outputs.Answer op answer) = answers_with sc c op answer", "client_says sc c before (outputs.Answer op answer) = answers_with (answers_with sc c op answer) c op answer"),)),
    Plant("asks are numbered anew after a start", A, (("Events", "asks = site.asks; starts = site.starts + 1", "asks = 0; starts = site.starts + 1"),)),
    Plant("a client that crashed serves its old asks", A, (
        ("Client", "crash c = record c { associations = map crashed_association c.associations; operations = []; next_command = 1 }", "crash c = record c { associations = map crashed_association c.associations; next_command = 1 }"),
        ("Client", "start c = record c { associations = map started_association c.associations; operations = []; next_command = 1 }", "start c = record c { associations = map started_association c.associations; next_command = 1 }"))),
    Plant("17 asks may be open", A, (("Client", "is_full c = nat_le 16 (length c.operations)", "is_full c = nat_le 17 (length c.operations)"),)),
    Plant("15 asks may be open", A, (("Client", "is_full c = nat_le 16 (length c.operations)", "is_full c = nat_le 15 (length c.operations)"),)),
    Plant("a write is `uncertain` at a lost lease", A, (
        ("Client", "end_unsent t o ask = answered t o.op answers.Quiesced", "end_unsent t o (asks.Write f p bytes) = answered t o.op (answers.Uncertain 1 0)\nend_unsent t o ask = answered t o.op answers.Quiesced"),)),
    Plant("a write is `quiesced` and done", A, (
        ("ClientPasses", "change t o f p n ps = answer o answers.Written (with_pages_changed ps f.ino p (note t n))", "change t o f p n ps = answer o answers.Quiesced (with_pages_changed ps f.ino p (note t n))"),)),
    Plant("a patch is answered `cut`", A, (
        ("ClientPasses", "patch_bytes t o f p at bytes old = change_page t o f p (overlay at bytes old) (notes.Patched f p at bytes)",
         "patch_bytes t o f p at bytes old = answer o answers.Cut (with_pages_changed t.here.store.pages f.ino p (note t (notes.Patched f p at bytes)))"),)),
    Plant("a cut is answered as it is asked for", A, (
        ("ClientPasses", "want_cut t ino body p = if pages.is_idle t.here.store ino then wanted_cut body ino p else None", "want_cut t ino body p = wanted_cut body ino p"),
        ("Client", "app t op ask = if is_full t.state then answered_at_once t op answers.OpsFull else app_known t op ask",
         "app t op (asks.Cut f p) = answered_at_once t op answers.Cut\napp t op ask = if is_full t.state then answered_at_once t op answers.OpsFull else app_known t op ask"))),
    Plant("a client's asks go to the next client's count", A, (("Events", "client_takes w c (inputs.App (site.asks + 1) ask) (asked_once_more site)", "client_takes w c (inputs.App (site.asks + 2) ask) (asked_once_more site)"),)),
    Plant("an epoch is skipped at a start", A, (("Server", "next_epoch e = record { 0 = e.0 + 1 }", "next_epoch e = record { 0 = e.0 + 2 }"),), "cuts"),
    Plant("an epoch lasts over a start", A, (("Server", "next_epoch e = record { 0 = e.0 + 1 }", "next_epoch e = e"),), "cuts"),
)

# Machines with wrong trees, limits and room.
ROOM = (
    Plant("a removed file's inode is given again", A, (("Names", "is_entry_at dir name d)) n.entries }; ino = e.ino }", "is_entry_at dir name d)) n.entries; next = e.ino }; ino = e.ino }"),), "names"),
    Plant("a rename leaves the old name too", A, (
        ("Names", "{ entries = map (move_entry dir name dir2 name2) n.entries }; ino = e.ino }", "{ entries = n.entries ++ moved dir2 name2 e ∷ [] }; ino = e.ino }"),), "names"),
    Plant("a rename gives the file a new inode", A, (
        ("Names", "{ entries = map (move_entry dir name dir2 name2) n.entries }; ino = e.ino }", "{ entries = map (λ d. if is_entry_at dir name d then record d { dir = dir2; name = name2; ino = n.next } else d) n.entries; next = n.next + 1 }; ino = e.ino }"),), "names"),
    Plant("a rename goes to the root, whatever its directory", A, (("Server", "(names.rename t.state.stable.names dir n dir2 n2)", "(names.rename t.state.stable.names dir n 1 n2)"),), "names"),
    Plant("a remove takes the first entry of the directory", A, (
        ("Names", "is_entry_at dir name d)) n.entries }; ino = e.ino }", "same_ino d (first_in n dir))) n.entries }; ino = e.ino }\nsame_ino d None = false\nsame_ino d (Some f) = d.ino == f.ino\nfirst_in n dir = find (is_in dir) n.entries"),), "names"),
    Plant("a list is in the order of creation", A, (("Names", "(take 256 (by_name (map name_row (filter (is_listed dir after) n.entries))))", "(take 256 (map name_row (filter (is_listed dir after) n.entries)))"),), "names"),
    Plant("a list has the entries of all directories", A, (("Names", "is_listed dir after e = is_in dir e && name_below after e.name", "is_listed dir after e = name_below after e.name"),), "names"),
    Plant("a list calls all entries files", A, (("Names", "name_row e = record { ino = e.ino; directory = e.directory; name = e.name }", "name_row e = record { ino = e.ino; directory = false; name = e.name }"),), "names"),
    Plant("a name is created twice", A, (("Names", "add_beside n dir name directory = if is_some (entry_at n dir name) then Err Exists else add_new n dir name directory", "add_beside n dir name directory = add_new n dir name directory"),), "names"),
    Plant("a file has entries", A, (("Names", "kind_refusal (Some false) = Some NotDir", "kind_refusal (Some false) = None"),), "names"),
    Plant("a directory that is gone has entries", A, (("Names", "kind_refusal None = Some NoEntry", "kind_refusal None = None"),), "names"),
    Plant("a directory is removed where a file was named", A, (
        ("Server", "remove_dir t dir name g = if g.0 == 0 then name_changed t (names.remove t.state.stable.names dir name) else name_refused t IsDir", "remove_dir t dir name g = name_changed t (names.remove t.state.stable.names dir name)"),), "names"),
    Plant("a tree has room for twelve entries", A, (("Names", "next = 10; limit = 4096 }", "next = 10; limit = 12 }"),), "names"),
    Plant("refusals have other numbers", A, (("Names", "code_of NoEntry = 1\ncode_of Exists = 2", "code_of NoEntry = 2\ncode_of Exists = 1"),), "names"),
    Plant("a cut spares the last page of its file", A, (
        ("Extents", "rows = filter (λ e. not (is_at_or_behind f p e)) x.rows", "rows = filter (λ e. not (is_at_or_behind f p e && list_any (λ d. same_file d.file f && nat_le (e.page.0 + 1) d.page.0) x.rows)) x.rows"),), "cuts"),
    Plant("a cut takes the pages of the next file too", A, (
        ("Extents", "is_at_or_behind f p e = same_file e.file f && nat_le p.0 e.page.0", "is_at_or_behind f p e = ((e.file.ino == f.ino) || (e.file.ino == f.ino + 1)) && nat_le p.0 e.page.0"),
        ("Extents", "Bool, ◌&&◌, not", "Bool, ◌&&◌, ◌||◌, not")), "cuts"),
    Plant("a client that cuts keeps its clean pages", A, (("ClientPasses", "cut_store (Some cut) st = pages.forget_from st cut.0 cut.1", "cut_store (Some cut) st = st"),), "cuts"),
    Plant("two pages lie on one block", A, (("Extents", "is_free x b = not (list_any (lies_at b) x.rows)", "is_free x b = true"),)),
    Plant("a server keeps one block back", A, (
        ("Extents", "free x = length (free_blocks x)", "free x = pred (length (free_blocks x))"),
        ("Extents", "ℕ, zero, suc, ◌+◌", "ℕ, zero, suc, pred, ◌+◌"))),
    Plant("two locks are too many", A, (("Locks", "waiters = []; limit = 1024 }", "waiters = []; limit = 2 }"),)),
    Plant("a server takes requests of ended lives", A, (("Server", "request_by t now h body takes.Stale = t", "request_by t now h body takes.Stale = serve h (rule t now h body)"),), "cuts"),
)

# Of plants.py, those that short runs show to users: the volume refuses them too.
SEEN_BY_USERS = {
    "a server truncates a file whenever it grants it exclusively",
    "a cut is done again when its request comes again",
    "a cut takes the whole file, whatever its page",
    "a cut is done and answered `notholder`",
    "a client answers an acknowledged cut `notholder`",
    "a cut is acknowledged and not done",
    "when a cut is acknowledged, `notholder` is kept as its reply",
    "operations that were sent are answered `quiesced`",
    "a request with a kept reply is served again",
    "a cut whose request is given up is answered `quiesced`",
    "a cut that was sent before a lost lease is answered `quiesced`",
    "a cut is sent again in a new epoch",
    "lost pages are never told: a sync always answers `hard`",
    "lost pages are not told to a new sync",
    "`hard` for ever: every sync is answered so at once",
    "reads answer `diskfault` without a failed report",
    "a client answers `opsfull` at two operations",
    "a dropped entry is reported as hard",
    "what a crash drops is reported as failed",
    "what is answered `quiesced` stays pending",
    "a look-up finds an inode that never was",
    "names are listed as they were at the start",
    "a look-up uses the names at the start",
    "a client takes the reply of an older request",
    "an ask whose request is given up is answered as refused",
    "an ask that was sent before a lost lease is answered as refused",
    "a client answers all its asks for names by one reply",
    "a change of names is answered and not done",
    "a removal of a file is answered and not done",
    "a change of names is done and answered as refused",
    "a rename goes the other way",
    "a directory is made as a file",
    "a crash forgets the names",
    "a server takes an inode number at each start",
    "an ask is sent again in a new epoch",
    "a request that comes again is served again",
    "a server has no grace",
    "a server grants over a conflict",
    "clean pages are kept at a release",
    "a client writes with a shared lock",
    "a lock is released with dirty pages",
    "a sync is `hard` while pages are dirty",
    "a changed page is hard by its older write",
    "the birth of a block is ignored",
    "a page is read as zeros while it isn't known where it lies",
}
PLANTS = PASSING + ANSWERS + EFFECTS + BYTES + LOSSES + ASKS + ROOM + tuple(plant._replace(promises=A) for plant in OTHERS if plant.name in SEEN_BY_USERS)
