"""The scripts of the client's worked rows, by subject; client_rows.py plays them."""
from client_rows import G1
from row_records import (
    Ack, Block, Create, Demand, Extents, FRESH_TAG, File, Granted, ListDir, Lock, Lookup, Mkdir, NONE, Nack, NameRow, Named, Queued, Reasserted,
    RemoveEntry, Rename, S, Tag, Welcome, X, ZEROS, uniform_page,
)

G2, G3 = G1 + 1, G1 + 2


def at(p, birth=None):
    """The extent of a page: page p lies on block p of disk 1."""
    return (p, Block(1, p), birth or p + 1)


def sessions(Row):
    """Sessions: how they begin, and which messages belong to them."""
    r = Row("a_write_is_read_back", "A write asks for a session, a lock and a block, and is accepted; a read finds it.").leased()
    r.read(0, 2, 0)
    yield r

    r = Row("a_lease_is_dated_from_the_greeting", "The lease has the date of the greeting, not of the welcome's arrival.")
    r.write(100, 2, 0, 77)
    r.hear(400, 0, 100, Welcome())
    yield r

    r = Row("a_late_welcome_is_passed_over", "A welcome to a greeting that is a lease ago is ignored; the client greets again, and the next one begins a session one tick before that.")
    r.read(0, 2, 0)
    r.hear(1000, 0, 0, Welcome())
    r.tick(1000)
    r.hear(1999, 0, 1000, Welcome())
    yield r

    r = Row("greetings_are_repeated_on_old_ticks", "A greeting is sent once more on a tick, when it is old, and not for a second operation.")
    r.read(0, 2, 0)
    r.read(60, 2, 1)
    r.tick(49)
    r.tick(50)
    r.tick(99)
    yield r

    r = Row("strange_messages_are_passed_over", "Messages to others, of servers that are not there, of other lives, of later stamps, of other epochs, and without a session.")
    r.read(10, 2, 0)
    r.hear(10, 0, 10, Welcome(), to=2)
    r.hear(10, 0, 10, Welcome(), s=2)
    r.hear(10, 0, 10, Welcome(), life=2)
    r.hear(10, 0, 11, Welcome())
    r.hear(10, 0, 0, Granted(2, G1, X))
    r.hear(10, 0, 10, Welcome())
    r.hear(10, 0, 10, Welcome())
    r.hear(10, 1, 10, Granted(2, G1, S), epoch=2)
    r.hear(10, 2, 10, Granted(2, G1, S))
    r.hear(10, 1, 10, Granted(3, G1, S))
    r.hear(10, 1, 10, Ack())
    yield r


def renewals(Row):
    """What is sent again on a tick: keep-alives, and requests that are old."""
    r = Row("keep_alives_begin_with_renewal", "A keep-alive is sent from the age of renewal on, and no tick before; its acknowledgement renews the lease from its sending.").leased()
    r.tick(499)
    r.tick(500)
    r.hear(600, 3, 500, Ack())
    r.tick(999)
    r.tick(1000)
    yield r

    r = Row("operations_speak_before_keep_alives", "In renewal an operation asks first, and of several the first in order that has something to ask; with nothing to ask a keep-alive is sent.").leased()
    r.read(500, 2, 0)
    r.hear(500, 3, 500, Ack())
    r.sync(1000, 2)
    r.done(1000, 1, ())
    r.hear(1000, 4, 1000, Ack())
    r.hear(1500, 0, 0, Granted(3, G2, S))
    r.read(1500, 2, 0)
    r.hear(1500, 5, 1500, Ack())
    r.read(2000, 3, 0)
    r.read(2000, 4, 0)
    r.hear(2000, 6, 2000, Extents(3, ()))
    yield r

    r = Row("requests_are_repeated_on_old_ticks", "The outstanding request is sent once more on a tick, when it is old, with its number and a new stamp; a reply to the first sending counts.")
    r.read(0, 2, 0)
    r.hear(0, 0, 0, Welcome())
    r.tick(49)
    r.read(60, 2, 1)
    r.tick(60)
    r.tick(109)
    r.hear(109, 1, 60, Granted(2, G1, S))
    yield r


def losses(Row):
    """Leases that are over, and the pages that are lost with them."""
    r = Row("a_lease_that_is_over_is_lost", "In quiesce nothing new is served; at the end the lease is lost, before the message is taken.").leased()
    r.read(699, 2, 0)
    r.hear(699, 3, 699, Ack())
    r.read(700, 2, 0)
    r.sync(700, 2)
    r.tick(849)
    r.hear(1000, 4, 699, Ack())
    r.read(1000, 3, 0)
    yield r

    r = Row("lost_pages_are_told_once", "At a loss each dirty page is reported with the command that failed, the one that was out, or none; what was sent is uncertain, a second sync is quiesced.").leased()
    r.hear(0, 0, 0, Granted(3, G2, S))
    r.write(0, 2, 1, 78)
    r.hear(0, 3, 0, Extents(2, (at(1), at(2))))
    r.sync(0, 2)
    r.done(0, 2, None)
    r.write(0, 2, 2, 79)
    r.name(0, Create(1, b"n"))
    r.sync(0, 2)
    r.sync(0, 2)
    r.read(0, 4, 0)
    r.name(0, Create(1, b"m"))
    r.tick(1000)
    r.sync(1000, 2)
    yield r

    r = Row("a_failed_command_is_told_before_the_outstanding_one", "A page whose write failed and is outstanding once more is reported as lost with the one that failed.").leased()
    r.sync(0, 2)
    r.done(0, 1, None)
    r.sync(0, 2)
    r.tick(0)
    r.tick(1000)
    yield r

    r = Row("a_later_sync_is_told_lost_pages", "Without a sync at the loss the next one of the file reports it, and the one after it is hard at once, without a session.").leased()
    r.tick(1000)
    r.sync(1000, 3)
    r.sync(1000, 2)
    r.sync(1000, 2)
    yield r


def later_losses(Row):
    """Several losses, several servers, and the lives after a start."""
    r = Row("two_losses_are_told_together", "A page that is lost again replaces its row; the next life begins with nothing.").leased()
    r.tick(1000)
    r.write(1000, 2, 0, 5)
    r.hear(1000, 0, 1000, Welcome(), life=2)
    r.hear(1000, 1, 1000, Granted(2, G2, X), life=2)
    r.hear(1000, 2, 1000, Extents(2, (at(0), at(1))), life=2)
    r.write(1000, 2, 1, 6)
    r.tick(1850)
    r.done(1850, 1, ())
    r.tick(2000)
    r.sync(2000, 2)
    yield r

    r = Row("servers_go_in_rising_order", "Losses come first, and then the passes, each server after the other.", servers=2)
    r.read(0, 2, 0, s=2)
    r.read(0, 2, 0)
    r.hear(0, 0, 0, Welcome(), s=2)
    r.hear(0, 0, 0, Welcome())
    r.tick(1000)
    r.read(1000, 2, 0, s=2)
    r.read(1000, 2, 0, s=1)
    r.tick(1050)
    yield r

    r = Row("a_start_begins_new_lives", "A crash leaves nothing but the lives, and a start raises them.", servers=2).leased()
    r.read(0, 2, 0, s=2)
    r.restart()
    r.sync(5, 2)
    r.read(5, 2, 0)
    r.hear(5, 0, 5, Welcome(), life=2)
    yield r


def epochs(Row):
    r = Row("a_new_epoch_gives_up_the_request", "A newer epoch gives up the outstanding request, whose operation is uncertain; the locks are reasserted, and pages stay.").leased()
    r.name(10, Create(1, b"n"))
    r.hear(20, 3, 10, Nack(3, 1, 2), epoch=2)
    r.hear(20, 3, 10, Named(0, 10))
    r.hear(20, 1, 10, Reasserted(), epoch=2)
    r.hear(20, 1, 20, Reasserted(), epoch=2)
    r.read(30, 2, 0)
    r.hear(40, 2, 20, Nack(3, 1, 2), epoch=2)
    yield r

    r = Row("a_new_epoch_forgets_what_was_under_way", "Waits, releases and demands are forgotten, and the locks are reasserted once more if a second epoch comes first.").leased()
    r.hear(0, 0, 0, Granted(3, G2, S))
    r.read(0, 4, 0)
    r.hear(0, 3, 0, Queued(4, S))
    r.write(0, 3, 0, 1)
    r.hear(0, 0, 0, Demand(2, G1, NONE))
    r.hear(0, 0, 0, Demand(5, G3, NONE))
    r.hear(0, 0, 0, Nack(3, 1, 2), epoch=2)
    r.hear(0, 0, 0, Nack(3, 2, 3), epoch=3)
    r.hear(0, 1, 0, Reasserted(), epoch=2)
    r.hear(0, 1, 0, Reasserted(), epoch=3)
    yield r

    r = Row("a_refused_reassertion_condemns", "A refusal of the reassertion condemns the lease: nothing more is asked, what is pending is quiesced, and in flush pages are written.").leased()
    r.hear(0, 0, 0, Nack(3, 1, 2), epoch=2)
    r.hear(0, 1, 0, Nack(7, 2, G1), epoch=2)
    r.read(0, 2, 0)
    r.tick(500)
    r.hear(500, 1, 0, Nack(3, 2, 3), epoch=3)
    r.tick(850)
    yield r

    r = Row("a_suspect_is_condemned", "Refused as a suspect, the client hopes for no renewal; the same of a life without a session, of a late reassertion, and of a conflict. Two refusals are ignored.", servers=4)
    for s, why in ((1, 1), (2, 2), (3, 5), (4, 6)):
        r.read(0, 2, 0, s=s)
        r.hear(0, 0, 0, Welcome(), s=s)
        r.hear(0, 1, 0, Nack(4, 0, 0), s=s)
        r.hear(0, 1, 0, Nack(3, 1, 1), s=s)
        r.hear(0, 9, 0, Nack(why, 0, 0), s=s)
    r.tick(60)
    yield r


def demands(Row):
    """Grants, demands, and the reductions that they ask for."""
    r = Row("a_grant_below_the_greatest_seen_is_not_installed", "A lock that was given up is not held again by an older grant; its request ends, and another one is sent.").hard()
    r.hear(0, 0, 0, Demand(2, G2, NONE))
    r.hear(0, 3, 0, Ack())
    r.read(0, 2, 0)
    r.hear(0, 0, 0, Granted(2, G1, X))
    r.hear(0, 4, 0, Granted(2, G2, X))
    r.hear(0, 5, 0, Granted(2, G3, S))
    yield r

    r = Row("a_demand_may_come_before_its_grant", "A demand of a lock that is not held is answered by its release, once; the grant that comes later is not installed.")
    r.read(0, 2, 0)
    r.hear(0, 0, 0, Welcome())
    r.hear(0, 0, 0, Demand(2, G1, NONE))
    r.hear(0, 0, 0, Demand(2, G1, NONE))
    r.hear(0, 1, 0, Granted(2, G1, S))
    r.hear(0, 0, 0, Demand(2, G1, NONE))
    r.hear(0, 2, 0, Ack())
    r.hear(0, 0, 0, Demand(2, G1, S))
    yield r

    r = Row("a_lock_is_reduced_to_shared_and_keeps_its_pages", "A demand to share waits for the dirty page; then the lock is shared, its page can still be read, and a write asks for the lock anew.").leased()
    r.hear(0, 0, 0, Demand(2, G1, S))
    r.read(0, 2, 0)
    r.done(0, 1, ())
    r.hear(0, 3, 0, Ack())
    r.write(0, 2, 0, 5)
    yield r

    r = Row("a_lock_is_reduced_to_none_with_its_pages", "A demand of the whole lock: the pages go with it.").hard()
    r.hear(0, 0, 0, Demand(2, G1, NONE))
    r.read(0, 2, 0)
    r.hear(0, 3, 0, Ack())
    r.hear(0, 4, 0, Granted(2, G2, S))
    yield r

    r = Row("a_read_that_is_out_holds_up_a_reduction", "A demanded file is not idle while one of its pages is read; then its lock goes, and the read asks for it anew.")
    r.read(0, 2, 0)
    r.hear(0, 0, 0, Welcome())
    r.hear(0, 1, 0, Granted(2, G1, S))
    r.hear(0, 2, 0, Extents(2, (at(0),)))
    r.hear(0, 0, 0, Demand(2, G1, NONE))
    r.sync(0, 9)
    r.done(0, 1, (Tag(File(1, 2), 0, 1), uniform_page(5)))
    r.sync(0, 9)
    r.hear(0, 3, 0, Ack())
    yield r


def waits(Row):
    """Reductions that wait, demands that meet, and waits."""
    r = Row("a_cut_that_is_out_holds_up_a_reduction", "A demanded file is not reduced while it is cut; of two demands that come meanwhile the lesser holds, and there is one release.").hard()
    r.cut(0, 2, 1)
    r.hear(0, 0, 0, Demand(2, G1, S))
    r.hear(0, 0, 0, Demand(2, G1, NONE))
    r.hear(0, 3, 0, Ack())
    r.hear(0, 4, 0, Ack())
    yield r

    r = Row("the_lesser_demand_holds", "Of two demands the lesser holds, with the later grant; a demand of an earlier grant is ignored.").leased()
    r.hear(0, 0, 0, Demand(2, G2, NONE))
    r.hear(0, 0, 0, Demand(2, G3, S))
    r.hear(0, 0, 0, Demand(2, G2, NONE))
    r.done(0, 1, ())
    yield r

    r = Row("a_grant_forgets_the_demand", "A later grant of a demanded file is installed, and its demand is forgotten.").leased()
    r.hear(0, 0, 0, Demand(2, G1, NONE))
    r.hear(0, 0, 0, Granted(2, G2, X))
    r.done(0, 1, ())
    r.read(0, 2, 0)
    yield r

    r = Row("a_wait_is_asked_again_when_it_is_old", "A lock that is waited for is asked for again, when the wait is old or a higher mode is needed.")
    r.read(0, 2, 0)
    r.hear(0, 0, 0, Welcome())
    r.hear(10, 1, 0, Queued(2, S))
    r.read(59, 2, 1)
    r.read(60, 2, 2)
    r.hear(70, 2, 60, Queued(2, S))
    r.write(70, 2, 3, 1)
    r.hear(80, 3, 70, Queued(2, X))
    r.hear(90, 0, 0, Granted(2, G1, X))
    yield r

    r = Row("a_held_lock_is_not_waited_for", "To be told to wait for a lock that is held already changes nothing.")
    r.read(0, 2, 0)
    r.hear(0, 0, 0, Welcome())
    r.hear(0, 0, 0, Granted(2, G1, X))
    r.hear(0, 1, 0, Queued(2, S))
    r.hear(0, 2, 0, Extents(2, ()))
    yield r


def writes(Row):
    """Writes of pages, and patches."""
    r = Row("a_failed_write_is_submitted_again", "A sync is told that the write failed; a later one waits until a tick submits the page again.").leased()
    r.sync(0, 2)
    r.done(0, 1, None)
    r.sync(0, 2)
    r.tick(0)
    r.done(0, 2, ())
    yield r

    r = Row("a_failed_write_waits_out_the_flush", "In flush the pages without a failed command are written, by rising file and page, and the others are not.").leased(3)
    r.hear(0, 0, 0, Extents(3, (at(1),)))
    r.write(0, 3, 1, 1)
    r.hear(0, 3, 0, Extents(3, (at(1),)))
    r.hear(0, 0, 0, Granted(2, G2, X))
    r.write(0, 2, 5, 2)
    r.hear(0, 4, 0, Extents(2, (at(4), at(5))))
    r.write(0, 2, 4, 3)
    r.sync(0, 3)
    r.done(0, 2, None)
    r.done(0, 1, ())
    r.write(0, 3, 0, 4)
    r.tick(849)
    r.tick(850)
    r.tick(851)
    yield r

    r = Row("a_page_that_was_changed_since_stays_dirty", "A write that is done for an older version leaves the page dirty; so does one that fails, and marks nothing.").leased()
    r.sync(0, 2)
    r.write(0, 2, 0, 78)
    r.done(0, 1, ())
    r.write(0, 2, 0, 79)
    r.done(0, 2, None)
    r.sync(0, 2)
    r.done(0, 3, ())
    yield r

    r = Row("a_patch_reads_its_page_first", "A patch of a page that is mapped and not cached waits for its read, of which there is one.")
    r.patch(0, 2, 0, 0, bytes([9]))
    r.hear(0, 0, 0, Welcome())
    r.hear(0, 1, 0, Granted(2, G1, X))
    r.hear(0, 2, 0, Extents(2, (at(0),)))
    r.read(0, 2, 0)
    r.done(0, 1, (FRESH_TAG, ZEROS))
    r.sync(0, 2)
    yield r


def reads(Row):
    """Patches and reads of pages, and extents."""
    r = Row("a_patch_over_a_dirty_page", "A patch of a dirty page is accepted at once, and the page is written whole.").leased()
    r.patch(0, 2, 0, 4094, bytes([5, 5]))
    r.read(0, 2, 0)
    r.sync(0, 2)
    yield r

    r = Row("a_block_of_another_birth_is_zeros", "What a read finds counts if the block's tag is the page's and its birth is the known one; otherwise the page is zeros. Results of another kind and of unknown commands are ignored.")
    r.read(0, 2, 0)
    r.hear(0, 0, 0, Welcome())
    r.hear(0, 1, 0, Granted(2, G1, S))
    r.hear(0, 2, 0, Extents(2, (at(0, 7), at(1, 8))))
    r.read(0, 2, 1)
    r.done(0, 1, ())
    r.done(0, 3, (Tag(File(1, 2), 0, 7), uniform_page(5)))
    r.done(0, 1, (Tag(File(1, 2), 0, 6), uniform_page(5)))
    r.done(0, 2, (Tag(File(1, 2), 1, 8), uniform_page(6)))
    yield r

    r = Row("a_failed_read_answers_who_waits_for_it", "A failed read is reported to the reads and patches of its page, and the next one reads again.")
    r.read(0, 2, 0)
    r.hear(0, 0, 0, Welcome())
    r.hear(0, 1, 0, Granted(2, G1, X))
    r.hear(0, 2, 0, Extents(2, (at(0), at(1))))
    r.patch(0, 2, 0, 1, bytes([1]))
    r.patch(0, 2, 1, 1, bytes([1]))
    r.sync(0, 2)
    r.done(0, 1, None)
    r.read(0, 2, 0)
    yield r

    r = Row("a_write_forgets_the_read_of_its_page", "A page that is written while it is read: the read is forgotten, and its result is ignored.")
    r.read(0, 2, 0)
    r.hear(0, 0, 0, Welcome())
    r.hear(0, 1, 0, Granted(2, G1, X))
    r.hear(0, 2, 0, Extents(2, (at(0),)))
    r.write(0, 2, 0, 5)
    r.done(0, 1, (Tag(File(1, 2), 0, 1), uniform_page(6)))
    r.read(0, 2, 0)
    yield r

    r = Row("extents_of_an_older_grant_are_not_learned", "Extents that were asked under a grant other than the lock's are not known.")
    r.read(0, 2, 0)
    r.hear(0, 0, 0, Welcome())
    r.hear(0, 1, 0, Granted(2, G1, S))
    r.hear(0, 0, 0, Granted(2, G2, S))
    r.hear(0, 2, 0, Extents(2, (at(0),)))
    r.hear(0, 3, 0, Extents(2, ()))
    yield r


def file_asks(Row):
    """Asks of files: cuts and removals."""
    r = Row("a_seventeenth_operation_is_one_too_many", "With 16 operations pending the next is answered at once, also one of a server that is not there.")
    for _ in range(16):
        r.read(0, 2, 0)
    r.sync(0, 9, s=4)
    yield r

    r = Row("a_server_that_is_not_there_has_no_files", "An ask of a server that is not configured; a sync without dirty pages needs no session.")
    r.read(0, 2, 0, s=2)
    r.sync(0, 2)
    r.name(0, Lookup(1, b"f2"), s=7)
    yield r

    r = Row("a_file_is_cut", "A cut waits until the file is idle, is busy until it is answered, and leaves pages that are unmapped.").leased()
    r.cut(0, 2, 0)
    r.done(0, 1, ())
    r.read(0, 2, 0)
    r.cut(0, 2, 1)
    r.hear(0, 3, 0, Ack())
    r.hear(0, 4, 0, Ack())
    r.hear(0, 5, 0, Extents(2, ()))
    yield r

    r = Row("a_file_is_removed", "A removed file's lock is released, and one that was not removed is kept.").hard()
    r.name(0, RemoveEntry(1, b"f2", 2))
    r.hear(0, 3, 0, Named(2, 1))
    r.name(0, RemoveEntry(1, b"f2", 2))
    r.hear(0, 4, 0, Named(0, 2))
    r.hear(0, 5, 0, Ack())
    r.read(0, 2, 0)
    yield r

    r = Row("a_file_is_removed_while_it_is_demanded", "A demand that comes while the file is removed is seen; the removed file's lock is released once, and its demand is forgotten.").hard()
    r.name(0, RemoveEntry(1, b"f2", 2))
    r.read(0, 2, 0)
    r.hear(0, 0, 0, Demand(2, G1, NONE))
    r.hear(0, 3, 0, Named(0, 2))
    r.hear(0, 4, 0, Ack())
    yield r


def refused_asks(Row):
    """Names, and asks that are refused."""
    r = Row("names_are_answered", "Names need no lock; a directory is removed without one, with grant number 0.")
    r.name(0, Mkdir(1, b"d"))
    r.hear(0, 0, 0, Welcome())
    r.name(0, RemoveEntry(1, b"d", 0))
    r.name(0, Rename(1, b"a", 10, b"b"))
    r.name(0, ListDir(1, b"f2"))
    r.hear(0, 1, 0, Named(0, 10))
    r.hear(0, 2, 0, Named(2, 5))
    r.hear(0, 3, 0, Named(0, 11))
    r.hear(0, 4, 0, Named(1, (NameRow(10, 2, b"d"), NameRow(3, 1, b"f3"))))
    yield r

    r = Row("a_refused_file_answers_all_its_operations", "No file: all reads, writes, patches, cuts and removes of it, and not its syncs; the same for too many locks.").leased()
    r.read(0, 3, 0)
    r.write(0, 3, 0, 1)
    r.cut(0, 3, 0)
    r.name(0, RemoveEntry(1, b"f3", 3))
    r.patch(0, 3, 0, 1, bytes([1]))
    r.read(0, 4, 0)
    r.sync(0, 2)
    r.hear(0, 3, 0, Nack(8, 2, 0))
    r.hear(0, 4, 0, Nack(10, 1024, 0))
    yield r

    r = Row("no_space_answers_the_writes_of_the_page", "No space: the writes and patches of the page that should have been mapped, and no others.").leased()
    r.write(0, 2, 1, 1)
    r.patch(0, 2, 1, 0, bytes([3]))
    r.write(0, 2, 2, 1)
    r.hear(0, 3, 0, Nack(9, 0, 1))
    yield r

    r = Row("not_the_holder", "A cut that is refused for its holder is answered; a map that is refused so is asked again.").hard()
    r.cut(0, 2, 3)
    r.read(0, 2, 1)
    r.hear(0, 3, 0, Nack(7, 2, G1))
    r.hear(0, 4, 0, Nack(7, 2, G1))
    yield r

    r = Row("a_refusal_may_answer_nobody", "A cut that is refused for space is not answered, and stays sent until the lease is lost; its file stays busy.").hard()
    r.cut(0, 2, 3)
    r.hear(0, 3, 0, Nack(9, 0, 1))
    r.read(0, 2, 0)
    r.name(0, Lookup(1, b"f2"))
    r.hear(0, 4, 0, Nack(3, 1, 2), epoch=2)
    r.tick(1000)
    yield r


def limit_rows(Row):
    one_lock = {2: Lock(G1, X)}

    def extents(n):
        return {(2, p): (1, p, p + 1) for p in range(n + 1)}


    r = Row("a_sixty_fifth_dirty_page_is_one_too_many", "With 64 dirty pages a write of another page is refused, and of one of them accepted; a patch of another page is refused when the page is there.")
    r.begin_with("dirty_client 64", one_lock, extents=extents(64), dirty={(2, p): uniform_page(7) for p in range(64)})
    r.write(0, 2, 64, 9)
    r.write(0, 2, 63, 9)
    r.patch(0, 2, 64, 0, bytes([9]))
    r.done(0, 1, (Tag(File(1, 2), 64, 65), uniform_page(5)))
    yield r

    r = Row("a_page_that_was_not_used_leaves_the_clean_ones", "Of more than 256 clean pages the one that was used longest ago goes, and is read anew.")
    r.begin_with("clean_client 256", one_lock, extents=extents(256), clean={(2, p): uniform_page(7) for p in reversed(range(256))})
    r.read(0, 2, 255)
    r.read(0, 2, 256)
    r.done(0, 1, (Tag(File(1, 2), 256, 257), uniform_page(5)))
    r.read(0, 2, 255)
    r.read(0, 2, 253)
    r.read(0, 2, 254)
    yield r

    r = Row("a_grant_without_a_place_is_given_back", "With 1,024 locks a grant of another file is released, and one of a file that has a lock is installed.")
    files = range(1001, 2025)
    r.begin_with("locked_client 1024", {i: Lock(i, S) for i in files})
    r.hear(0, 0, 0, Granted(2025, 2025, S))
    r.hear(0, 3, 0, Ack())
    r.hear(0, 0, 0, Granted(2025, 2025, S))
    r.hear(0, 0, 0, Granted(2024, 3000, X))
    r.write(0, 2024, 0, 1)
    yield r


def FILES(Row):
    return {
        "client_leases": [*sessions(Row), *renewals(Row), *losses(Row), *later_losses(Row)],
        "client_epochs": list(epochs(Row)),
        "client_locks": [*demands(Row), *waits(Row)],
        "client_pages": [*writes(Row), *reads(Row)],
        "client_operations": [*file_asks(Row), *refused_asks(Row)],
        "client_limits": list(limit_rows(Row)),
    }
