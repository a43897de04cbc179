; Worlds, events and promises by the definitions. A head and the events are data: (form settings clients servers disks blocks), and the tuples of
; reference/schedule.py as lists; bytes are (bytes (COUNT BYTE) ..).
(define (layout-of names)
  (let ([wanted (list-sort string<? names)])
    (or (find (lambda (it) (equal? (map symbol->string (cdr it)) wanted)) layouts) (error 'layout-of "no such record" names))))
(define (record . fields) ; name value name value ..
  (let* ([table (let go ([it fields]) (if (null? it) '() (cons (cons (car it) (cadr it)) (go (cddr it)))))] [layout (layout-of (map car table))])
    (list->vector (cons (car layout) (map (lambda (name) (cdr (assoc (symbol->string name) table))) (cdr layout))))))
(define (variant-number name) (cdr (assq (string->symbol name) variants)))
(define (variant name . fields) (list->vector (cons (variant-number name) fields)))
(define (is? x name) (eqv? (vector-ref x 0) (variant-number name)))
(define (id n) (record "0" n))
(define (file it) (record "server" (id (car it)) "ino" (cadr it)))
(define server-base 32768)
(define (node n) (if (> n server-base) (variant "NodeId.Server" (id (- n server-base))) (variant "NodeId.Client" (id n))))
(define (bytes runs) ; behind the word `bytes`
  (cond [(null? (cdr runs)) '()]
        [(null? (cddr runs)) (|std.replicate| (caadr runs) (cadadr runs))]
        [else (append (|std.replicate| (caadr runs) (cadadr runs)) (bytes (cdr runs)))]))
(define name-asks '#("" "NameAsk.Lookup" "NameAsk.Create" "NameAsk.Mkdir" "NameAsk.Remove" "NameAsk.Rename" "NameAsk.List"))
(define (value it) (if (pair? it) (bytes it) it))
(define (ask it)
  (let ([at (lambda (n) (list-ref it n))])
    (case (car it)
      [(write) (variant "Ask.Write" (file (at 1)) (id (at 2)) (bytes (at 3)))]
      [(read) (variant "Ask.Read" (file (at 1)) (id (at 2)))]
      [(sync) (variant "Ask.Sync" (file (at 1)))]
      [(cut) (variant "Ask.Cut" (file (at 1)) (id (at 2)))]
      [(patch) (variant "Ask.Patch" (file (at 1)) (id (at 2)) (at 3) (bytes (at 4)))]
      [(name) (variant "Ask.Name" (id (at 1)) (apply variant (vector-ref name-asks (car (at 2))) (map value (cdr (at 2)))))]
      [else (error 'ask "unknown" it)])))
(define (event it)
  (let ([at (lambda (n) (list-ref it n))])
    (case (car it)
      [(tick) (variant "Event.Tick" (node (at 1)))]
      [(app) (variant "Event.App" (id (at 1)) (ask (at 2)))]
      [(deliver) (variant "Event.Deliver" (at 1))]
      [(lose) (variant "Event.Lose" (at 1))]
      [(cut) (variant "Event.Cut" (node (at 1)) (node (at 2)))]
      [(heal) (variant "Event.Heal" (node (at 1)) (node (at 2)))]
      [(adv) (variant "Event.Advance" (at 1))]
      [(effect) (variant "Event.Effect" (at 1))]
      [(report) (variant "Event.Report" (at 1) (at 2))]
      [(crash) (variant "Event.Crash" (node (at 1)))]
      [(start) (variant "Event.Start" (node (at 1)))]
      [else (error 'event "unknown" it)])))
(define (settings numbers) (apply record (apply append (map list '("lease" "renew" "quiesce" "flush" "demand" "retry" "num" "den" "grain") numbers))))
; an event of a world of any form
(define (third-event it)
  (if (and (eq? (car it) 'app) (eq? (car (list-ref it 2)) 'leave))
      (variant "ThirdEvent.Leave" (id (list-ref it 1)) (id (list-ref (list-ref it 2) 1)))
      (variant "ThirdEvent.Plain" (event it))))
(define (limits numbers) (apply record (apply append (map list '("inodes" "locks" "dirty" "clean" "operations") numbers))))
(define (with-head f head)
  (let ([form (car head)] [k (settings (cadr head))]) (apply (lambda (clients servers disks blocks . more) (f k clients servers disks blocks form)) (cddr head))))
(define (with-third-head f head)
  (let ([form (car head)] [k (settings (cadr head))])
    (apply (lambda (clients servers disks blocks numbers) (f k (limits numbers) clients servers disks blocks form)) (cddr head))))
(define (world-of head) (with-head |st_rules.World.fresh_world| head))
(define (run-of head events) (|st_rules.Run.run| events (world-of head)))
(define (third-world-of head) (with-third-head |st_third.World.third_world| head))
(define (third-run-of head events) (|st_third.Run.run| events (third-world-of head)))

; The promises: each, in order of the steps, of the steps before and the step, until it is broken. The answer is (name . step) of those that are.
(define (broken-in steps promises)
  (let go ([past '()] [steps steps] [number 1] [kept promises] [broken '()])
    (if (null? steps)
        broken
        (let* ([keeps? (lambda (promise) (((cdr promise) past) (car steps)))] [still (filter keeps? kept)])
          (go (extended past (car steps)) (cdr steps) (+ number 1) still
              (append broken (map (lambda (promise) (cons (car promise) number)) (remp (lambda (promise) (memq promise still)) kept))))))))

; Old messages change nothing, at the last world: each message that there is, with the life and the epoch that it has and with others, at every node.
(define (shifted message life epoch)
  (let ([header (field |field header| message)])
    (change message [|field header| (change header [|field life| (max 0 (+ (field |field life| header) life))] [|field epoch| (max 0 (+ (field |field epoch| header) epoch))])])))
(define (changes-client? site now message)
  (let ([turn (|st_rules.ClientState.client_turn| (field |field state| (field |field node| site)) '())])
    (and (|st_rules.Safety.is_old| (field |field state| turn) message)
         (not (equal? (|st_rules.Client.take_input| turn now (variant "ClientInput.Control" message)) turn)))))
(define (changes-server? server now message)
  (let ([turn (|st_rules.Server.turn| (field |field state| server) '())])
    (and (or (|st_rules.Safety.is_of_other_epoch| (field |field state| turn) message) (|st_rules.Safety.is_of_past_life| (field |field state| turn) message))
         (not (equal? (field |field state| (|st_rules.Server.take_input| turn now (variant "ServerInput.Control" message))) (field |field state| turn))))))
(define (old-messages-heard world)
  (let* ([clients (field |field clients| world)] [servers (field |field servers| world)] [clocks (field |field clocks| world)]
         [sent (map (lambda (it) (field |field message| it)) (field |field messages| (field |field net| world)))]
         [all (apply append (map (lambda (by) (map (lambda (it) (shifted it (car by) (cadr by))) sent)) '((0 0) (1 0) (-1 0) (0 1) (0 -1))))]
         [heard? (lambda (changes? nodes clocks) (exists (lambda (it clock) (exists (lambda (message) (changes? it clock message)) all)) nodes clocks))])
    (append (if (heard? changes-client? clients (list-head clocks (length clients))) '((OldMessagesChangeNoClient . last)) '())
            (if (heard? changes-server? servers (list-tail clocks (length clients))) '((OldMessagesChangeNoServer . last)) '()))))

; What is broken in a run: (steps, whether the head and the events are those of schedules, what is broken).
(define (judged head events)
  (let* ([sound? (and (with-head |st_rules.Safety.IsHead| head) (|std.list_all| (lambda (it) (|st_rules.Safety.is_event| (+ (caddr head) (cadddr head)) it)) events))]
         [steps (|st_rules.Safety.steps| events (|st_rules.History.traced| (world-of head)))])
    (list (length steps) sound? (append (broken-in steps promises) (if (getenv "TANK_ONLY_MORE") '() (old-messages-heard (field |field world| (run-of head events))))))))

; Of the third form: its promises, and those of every form that it doesn't say anew, for the steps as these see them.
(define promises-of-every-form (remp (lambda (it) (assq (car it) third-promises)) promises))
(define (third-changes-client? site beside limits now message)
  (let ([turn (|st_third.State.third_turn| (record "plain" (field |field state| (field |field node| site)) "beside" beside) '())])
    (and (|st_rules.Safety.is_old| (field |field plain| (field |field client| turn)) message)
         (not (equal? (|st_third.Client.take_input| limits turn now (variant "ThirdInput.Plain" (variant "ClientInput.Control" message))) turn)))))
(define (third-changes-server? form server now message)
  (let ([turn (|st_rules.Server.turn| (field |field state| server) '())])
    (and (or (|st_rules.Safety.is_of_other_epoch| (field |field state| turn) message) (|st_rules.Safety.is_of_past_life| (field |field state| turn) message))
         (not (equal? (field |field state| (|st_third.Server.take_input| form turn now (variant "ServerInput.Control" message))) (field |field state| turn))))))
(define (third-old-messages-heard third)
  (let* ([world (field |field world| third)] [clients (field |field clients| world)] [clocks (field |field clocks| world)] [limits (field |field limits| third)]
         [sent (map (lambda (it) (field |field message| it)) (field |field messages| (field |field net| world)))]
         [all (apply append (map (lambda (by) (map (lambda (it) (shifted it (car by) (cadr by))) sent)) '((0 0) (1 0) (-1 0) (0 1) (0 -1))))])
    (append (if (exists (lambda (site beside clock) (exists (lambda (message) (third-changes-client? site beside limits clock message)) all))
                        clients (field |field besides| third) (list-head clocks (length clients)))
                '((OldMessagesChangeNoClient . last)) '())
            (if (exists (lambda (server clock) (exists (lambda (message) (third-changes-server? (field |field form| world) server clock message)) all))
                        (field |field servers| world) (list-tail clocks (length clients)))
                '((OldMessagesChangeNoServer . last)) '()))))
(define (third-judged head events)
  (let* ([sound? (with-third-head |st_third.Limits.IsHead| head)]
         [steps (|st_third.Steps.steps| events (|st_third.Steps.third_traced| (third-world-of head)))])
    (list (length steps) sound?
          (append (broken-in steps third-promises)
                  (broken-in (map |st_third.Steps.plain_step| steps) promises-of-every-form)
                  (if (getenv "TANK_ONLY_MORE") '() (third-old-messages-heard (field |field third| (third-run-of head events))))))))

; How many microseconds each promise takes over a run.
(define (times head events)
  (let ([steps (|st_rules.Safety.steps| events (|st_rules.History.traced| (world-of head)))])
    (map (lambda (promise)
           (let ([begun (current-time 'time-thread)])
             (fold-left (lambda (past step) (((cdr promise) past) step) (extended past step)) '() steps)
             (let ([taken (time-difference (current-time 'time-thread) begun)])
               (cons (car promise) (+ (* 1000000 (time-second taken)) (quotient (time-nanosecond taken) 1000))))))
         promises)))

; Of the third form: the bytes of every message of a run, each after a byte that says whether it fits; of a local message; and a head's line, and that of a leave.
(define (spelled message) (cons (if (|st_third.Messages.fits| message) 1 0) (|st_third.Messages.spelling| message)))
(define (all-spelled head events)
  (apply append (map (lambda (it) (spelled (variant "ThirdMessage.Plain" (field |field message| it))))
                     (field |field messages| (field |field net| (field |field world| (field |field third| (third-run-of head events))))))))
(define (local-message from to it)
  (let ([header (record "from" from "to" to "life" 0 "epoch" 0 "number" 0 "stamp" 0)] [at (lambda (n) (list-ref it n))])
    (case (car it)
      [(leave) (variant "ThirdMessage.Leave" header (at 1) (id (at 2)))]
      [(left) (variant "ThirdMessage.Left" header (at 1))]
      [else (variant "ThirdMessage.Unsynced" header (at 1) (at 2))])))
(define (head-line head)
  (apply (lambda (clients servers disks blocks numbers) (|st_third.Messages.head_line| (settings (cadr head)) (limits numbers) clients servers disks blocks)) (cddr head)))

; Requests: one datum each; the answer is a count of bytes, and the bytes.
(define (answer request)
  (forget-values)
  (case (car request)
    [(report) (u8-list->bytevector (|st_rules.Report.report| (run-of (cadr request) (map event (caddr request)))))]
    [(ending) (let ([run (run-of (cadr request) (map event (caddr request)))]) (u8-list->bytevector (|st_rules.Report.ending| run (field |field refused| run))))]
    [(third-report) (u8-list->bytevector (|st_third.Run.third_report| (third-run-of (cadr request) (map third-event (caddr request)))))]
    [(spelled) (u8-list->bytevector (all-spelled (cadr request) (map third-event (caddr request))))]
    [(local) (u8-list->bytevector (spelled (local-message (cadr request) (caddr request) (cadddr request))))]
    [(head-line) (u8-list->bytevector (head-line (cadr request)))]
    [(leave-line) (u8-list->bytevector (|st_third.Messages.leave_line| (id (cadr request)) (id (caddr request))))]
    [(third-judge) (string->utf8 (format "~s" (third-judged (cadr request) (map third-event (caddr request)))))]
    [(judge) (string->utf8 (format "~s" (judged (cadr request) (map event (caddr request)))))]
    [(times) (string->utf8 (format "~s" (times (cadr request) (map event (caddr request)))))]
    [(draw) (let ([drawn (draw (cadr request) (caddr request) (cadddr request))]) (string->utf8 (format "~s" drawn)))]
    [(change) (for-each eval (cdr request)) (bytevector)]
    [else (error 'answer "unknown" (car request))]))
(define (serve in out)
  (let ([request (get-datum in)])
    (unless (eof-object? request)
      (let ([said (guard (fault [#t (string->utf8 (string-append "error: " (call-with-string-output-port (lambda (port) (display-condition fault port)))))])
                    (answer request))])
        (put-bytevector out (string->utf8 (format "~a\n" (bytevector-length said))))
        (put-bytevector out said)
        (flush-output-port out)
        (serve in out)))))
(serve (transcoded-port (standard-input-port) (make-transcoder (utf-8-codec))) (standard-output-port))
