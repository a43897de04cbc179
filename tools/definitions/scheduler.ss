; A hostile scheduler. It looks at the world of the definitions themselves, so that a wrong machine is driven by what it does.
(define (one-of xs) (list-ref xs (random (length xs))))
(define (chance p) (< (random 1000) (* 1000 p)))
(define (from-to a b) (+ a (random (+ 1 (- b a)))))
(define (range from count) (if (= count 0) '() (cons from (range (+ from 1) (- count 1)))))
(define (number-of x) (field |field 0| x))
(define (a-page) (list 'bytes (list 4096 (from-to 1 255))))

; A run that is drawn: its head, its world, its events from the last to the first; messages that were not delivered; the nodes with slow clocks; the
; inodes and pages of its asks; how likely a quick disk answers well, and a message is held back; the client whose messages are held back, or #f; how
; many commands of a thousand are slow; what its asks are like: `all`, `names` or `cuts`.
(define-record-type drawn
  (fields head (mutable state) (mutable events) (mutable fresh) slow inodes pages care held (mutable muted) lazy asks))
; A run of the third form has a world of st_third, in which the world of st_rules is.
(define (third? run) (= (car (drawn-head run)) 3))
(define (drawn-world run) (if (third? run) (field |field world| (drawn-state run)) (drawn-state run)))
(define (step-of run it)
  (if (third? run) (|st_third.Events.world_step| (drawn-state run) (third-event it)) (|st_rules.Events.world_step| (drawn-state run) (event it))))
(define (state-after run turn) (if (third? run) (field |field third| turn) (field |field world| turn)))
(define (settings-of run) (cadr (drawn-head run)))
(define (lease-of run) (car (settings-of run)))
(define (client-count run) (list-ref (drawn-head run) 2))
(define (server-count run) (list-ref (drawn-head run) 3))
(define (clients-of run) (range 1 (client-count run)))
(define (servers-of run) (range 1 (server-count run)))
(define (nodes-of run) (append (clients-of run) (map (lambda (s) (+ server-base s)) (servers-of run))))
(define (a-client run) (one-of (clients-of run)))
(define (a-server run) (one-of (servers-of run)))
(define (server-node s) (+ server-base s))
(define (messages-of run) (field |field messages| (field |field net| (drawn-world run))))
(define (commands-of run) (field |field commands| (field |field disks| (drawn-world run))))
(define (sites-of run) (field |field clients| (drawn-world run)))
(define (clock-of run place) (number-of (list-ref (field |field clocks| (drawn-world run)) place)))
(define (draw-limits)
  (list (one-of '(10 12 4096)) (one-of '(1 2 2 3 4 1024)) (one-of '(1 2 2 3 64)) (one-of '(2 2 3 256)) (one-of '(1 3 6 16 128))))
(define (draw-head asks)
  (let* ([form (if (eq? asks 'third) 3 (one-of '(1 1 2)))] [lease (one-of '(12 20 60 1000))] [early (if (chance 0.3) 1 (quotient lease 3))]
         [phases (let go () (let ([it (list-sort < (map (lambda (i) (from-to early (- lease 1))) '(1 2 3)))]) (if (< (car it) (cadr it) (caddr it)) it (go))))]
         [demand (from-to 1 (one-of (list 3 lease)))] [rate (one-of '((1 1) (101 100) (11 10) (5 4) (3 2) (2 1)))]
         [grain (if (= form 1) 0 (one-of (list 0 1 (from-to 0 lease) lease)))] [servers (one-of '(1 1 1 2))])
    (append (list form (append (list lease) phases (list demand (from-to 1 demand)) rate (list grain))
                  (one-of '(2 2 2 3 4)) servers (from-to servers (* 2 servers)) (from-to 1 6))
            (if (= form 3) (list (draw-limits)) '()))))

; An event happens if it is admissible; the answer says whether.
(define (put run it)
  (let ([result (step-of run it)] [sent (length (messages-of run))])
    (and (is? result "Result.Ok")
         (begin
           (drawn-state-set! run (state-after run (vector-ref result 1)))
           (drawn-events-set! run (cons it (drawn-events run)))
           (when (eq? (car it) 'deliver) (drawn-fresh-set! run (remv (cadr it) (drawn-fresh run))))
           (drawn-fresh-set! run (append (drawn-fresh run) (filter (lambda (k) (not (or (chance (drawn-held run)) (muted? run k))))
                                                                   (range (+ sent 1) (- (length (messages-of run)) sent)))))
           #t))))
(define (muted? run k) (eqv? (drawn-muted run) (field |field from| (field |field header| (field |field message| (list-ref (messages-of run) (- k 1)))))))
(define (restart run n) (put run (list 'crash n)) (put run (list 'start n)))

; Asks.
(define (a-name) (cons 'bytes (one-of '(((1 102) (1 50)) ((1 102) (1 51)) ((1 97)) ((1 98))))))
(define (a-directory) (one-of '(1 1 1 1 10 11)))
(define (a-name-ask run)
  (list 'name (a-server run)
        (if (eq? (drawn-asks run) 'names)
            (case (random 12)
              [(0 1) (list 1 (a-directory) (a-name))]
              [(2 3 4) (list 2 (a-directory) (a-name))]
              [(5 6) (list 3 (a-directory) (a-name))]
              [(7 8) (list 4 (a-directory) (a-name) (one-of '(0 0 2 3 10 11)))]
              [(9 10) (list 5 (a-directory) (a-name) (a-directory) (a-name))]
              [else (list 6 (a-directory) '(bytes))])
            (case (random 4) [(0) (list 1 1 (a-name))] [(1) (list 2 1 (a-name))] [(2) (list 4 1 (a-name) (one-of '(0 2 2 3 10)))] [else (list 5 1 (a-name) 1 (a-name))]))))
; a create or a mkdir that is likely not refused
(define (a-new-name s) (list 'name s (list (one-of '(2 3)) 1 (list 'bytes '(1 110) (list 1 (from-to 97 122))))))
(define (a-cut run s)
  (let ([ino (one-of (drawn-inodes run))])
    (if (or (> ino 9) (chance 0.7)) (list 'cut (list s ino) (random (drawn-pages run))) (list 'name s (list 4 1 (list 'bytes '(1 102) (list 1 (+ 48 ino))) ino)))))
(define (an-ask run)
  (let ([f (list (a-server run) (one-of (drawn-inodes run)))] [p (random (drawn-pages run))])
    (cond
      [(and (eq? (drawn-asks run) 'names) (chance 0.6)) (a-name-ask run)]
      [(and (eq? (drawn-asks run) 'cuts) (chance 0.5)) (a-cut run (car f))]
      [else
        (case (random (if (= (car (drawn-head run)) 1) 16 20))
          [(0 1 2 3 4 5) (list 'write f p (a-page))]
          [(6 7 8 9 10) (list 'read f p)]
          [(11 12 13) (list 'sync f)]
          [(14) (list 'cut f p)]
          [(15) (a-name-ask run)]
          [else (let ([at (one-of '(0 1 4095))]) (list 'patch f p at (list 'bytes (list (one-of (list 1 (- 4096 at))) (from-to 1 255)))))])])))

; Disks. Some commands are slow: only `effect` and `report` serve them.
(define (open-commands run)
  (let go ([n 1] [commands (commands-of run)])
    (cond [(null? commands) '()] [(is? (field |field report| (car commands)) "Report.Open") (cons n (go (+ n 1) (cdr commands)))] [else (go (+ n 1) (cdr commands))])))
(define (quick-commands run) (filter (lambda (k) (>= (modulo (* k 2654435761) 1000) (drawn-lazy run))) (open-commands run)))
(define (disks run)
  (for-each (lambda (k)
              (if (chance (drawn-care run))
                  (begin (put run (list 'effect k)) (put run (list 'report k #t)))
                  (case (random 4)
                    [(0) (put run (list 'effect k))]
                    [(1) (put run (list 'report k #f))]
                    [(2) (put run (list 'effect k)) (put run (list 'report k #f))]
                    [else #f])))
            (quick-commands run)))
(define (drain run)
  (let go ([n (one-of '(2 4 8 16 32))])
    (when (> n 0)
      (cond [(exists (lambda (k) (put run (list 'deliver k))) (drawn-fresh run)) (go (- n 1))]
            [(and (pair? (quick-commands run)) (chance 0.8)) (disks run) (go (- n 1))]))))

; Time. An advance in which one node gains d, and the others as much as their pace lets them: first as far apart as the rate and the grain ever allow,
; then as the rate alone does, then all alike.
(define (advance run place d)
  (let* ([numbers (settings-of run)] [num (list-ref numbers 6)] [den (list-ref numbers 7)] [grain (list-ref numbers 8)]
         [low (if (= (car (drawn-head run)) 1) 1 0)] [all (range 0 (+ (client-count run) (server-count run)))]
         [slow? (lambda (j) (and (memv j (drawn-slow run)) #t))] [up (lambda (a b) (quotient (+ a (- b 1)) b))]
         [other (lambda (j grain) (cond [(or (= j place) (eq? (slow? j) (slow? place))) d]
                                        [(slow? j) (quotient (+ (* d num) (* den grain)) den)]
                                        [else (up (max 0 (- (* d den) (* den grain))) num)]))]
         [try (lambda (gain) (put run (list 'adv (map (lambda (j) (max low (gain j))) all))))])
    (or (and (> grain 0) (chance 0.7) (try (lambda (j) (other j grain))))
        (and (> grain 0) (chance 0.7) (try (lambda (j) (other j (random (+ grain 1))))))
        (try (lambda (j) (other j 0)))
        (try (lambda (j) d)))))
; the moments at which something is due: (place of the node . ticks to go)
(define (due-at-clients run)
  (let ([phases (list-head (cdr (settings-of run)) 3)])
    (apply append
      (map (lambda (site place)
             (apply append
               (map (lambda (association)
                      (let ([session (field |field session| association)])
                        (if (some? session)
                            (let ([date (number-of (field |field date| (field |field lease| (vector-ref session 1))))])
                              (map (lambda (at) (cons place (- (+ date at) (clock-of run place)))) (append phases (list (caddr phases) (lease-of run) (lease-of run)))))
                            '())))
                    (field |field associations| (field |field state| (field |field node| site))))))
           (sites-of run) (range 0 (client-count run))))))
(define (due-at-servers run)
  (apply append
    (map (lambda (server place)
           (let* ([state (field |field state| server)] [grace (field |field grace| state)] [authority (field |field authority| state)]
                  [begun (append (if (some? grace) (list (vector-ref grace 1)) '()) (field |field suspects| authority))])
             (apply append
               (map (lambda (it) (let ([due (- (+ (field |field wait| authority) (number-of (field |field start| it))) (clock-of run place))]) (list (cons place due) (cons place due))))
                    begun))))
         (field |field servers| (drawn-world run)) (range (client-count run) (server-count run)))))
(define (to-boundary run)
  (let ([later (filter (lambda (it) (> (cdr it) 0)) (append (due-at-clients run) (due-at-servers run)))])
    (if (null? later)
        (advance run 0 (from-to 1 (lease-of run)))
        (let* ([timers (filter (lambda (it) (>= (car it) (client-count run))) later)]
               [it (one-of (if (and (pair? timers) (chance 0.5)) timers later))] [d (- (cdr it) (one-of '(0 0 0 1 1)))])
          (when (and (> d 0) (not (advance run (car it) d)))
            ; clients with dirty pages are to be flushed on the way
            (for-each (lambda (place)
                        (for-each (lambda (at) (when (and (= (car at) place) (> (cdr at) 0)) (advance run place (cdr at)))) (reverse (append (due-at-clients run) (due-at-servers run))))
                        (put run (list 'tick (+ place 1)))
                        (disks run))
                      (range 0 (client-count run))))
          (put run (list 'tick (list-ref (nodes-of run) (car it))))))))

; Scenes: a holder is silent; a server starts anew, sometimes after all clients read a file; a client hears of a new epoch, and what it says from then
; on is held back.
(define (silence run)
  (let* ([c (a-client run)] [s (a-server run)] [f (list s (one-of (drawn-inodes run)))] [p (random (drawn-pages run))] [other (a-client run)])
    (put run (list 'app c (list 'write f p (a-page))))
    (drain run)
    (when (chance 0.5) (put run (list 'app c (list 'sync f))) (drain run))
    (case (random 9)
      [(0) (put run (list 'crash c))]
      [(1 7 8) (restart run c) (put run (list 'app c (list 'read f p)))]
      [(2) (put run (list 'cut (server-node s) c))]
      [(3) (put run (list 'cut c (server-node s)))]
      [(4) (put run (list 'cut c (server-node s))) (put run (list 'cut (server-node s) c))]
      [else #f])
    (put run (list 'app other (if (chance 0.5) (list 'read f p) (list 'write f p (a-page)))))
    (drain run)
    (when (chance 0.7) (advance run (+ (client-count run) s -1) (list-ref (settings-of run) 4)) (put run (list 'tick (server-node s))))
    (when (chance 0.7)
      (to-boundary run)
      (put run (list 'tick (server-node s)))
      (to-boundary run)
      (put run (list 'tick (server-node s)))
      (drain run)
      (when (chance 0.5)
        (put run (list 'app other (list 'sync f)))
        (drain run)
        (for-each (lambda (k) (put run (list 'effect k))) (open-commands run))
        (put run (list 'app (a-client run) (list 'read f p)))
        (drain run)))))
(define (look-up run c s) (put run (list 'app c (list 'name s (list 1 1 '(bytes (1 102) (1 50)))))))
(define (resume run)
  (let* ([s (a-server run)] [f (list s (one-of (drawn-inodes run)))])
    (when (chance 0.3) (for-each (lambda (c) (put run (list 'app c (list 'read f 0))) (drain run)) (clients-of run)))
    (restart run (server-node s))
    (for-each (lambda (c)
                (when (chance 0.1) (restart run c))
                (when (chance 0.8) (look-up run c s))
                (drain run))
              (clients-of run))
    (when (chance 0.5) (to-boundary run))))
(define (mute run)
  (let* ([s (a-server run)] [c (a-client run)] [other (a-client run)] [f (list s (one-of (drawn-inodes run)))] [p (random (drawn-pages run))])
    (put run (list 'app c (if (chance 0.5) (list 'write f p (a-page)) (list 'read f p))))
    (drain run)
    (drain run)
    (when (chance 0.8) (restart run (server-node s)))
    (look-up run c s)
    (put run (list 'deliver (length (messages-of run))))
    (drawn-muted-set! run c)
    (drain run)
    (to-boundary run)
    (to-boundary run)
    (put run (list 'tick (server-node s)))
    (put run (list 'app other (list 'write f p (a-page))))
    (drain run)
    (put run (list 'tick other))
    (drain run)
    (put run (list 'app other (list 'write f p (a-page))))
    (drain run)
    (when (chance 0.5) (for-each (lambda (i) (put run (list 'deliver (of-some-kind run)))) '(1 2 3)))
    (when (chance 0.5) (drawn-muted-set! run #f))))
; an ask for a cut, or for a change of names, whose reply is late or lost or comes with a crash, and whose request is repeated
(define (repeat run)
  (let* ([c (a-client run)] [s (a-server run)] [f (list s (one-of (drawn-inodes run)))] [cuts? (or (eq? (drawn-asks run) 'cuts) (and (eq? (drawn-asks run) 'all) (chance 0.5)))])
    (when cuts?
      (put run (list 'app c (list 'write f (random (drawn-pages run)) (a-page))))
      (drain run)
      (put run (list 'app c (list 'sync f)))
      (drain run))
    (put run (list 'app c (cond [cuts? (list 'cut f (random (drawn-pages run)))] [(chance 0.5) (a-new-name s)] [else (a-name-ask run)])))
    (let ([request (max 1 (length (messages-of run)))])
      (when (chance 0.7) (put run (list 'deliver request)))
      (when (chance 0.5) (put run (list 'lose (max 1 (length (messages-of run))))))
      (case (random 5)
        [(0 1) (restart run (server-node s))]
        [(2) (restart run c)]
        [else #f])
      (when (chance 0.5) (put run (list 'app (a-client run) (an-ask run))) (drain run))
      (advance run (- c 1) (list-ref (settings-of run) 5))
      (put run (list 'tick c))
      (put run (list 'deliver request))
      (drain run))))

; Old messages; a message of some kind, so that the rare kinds come late and twice as often as the others.
(define (old-message run) (from-to 1 (max 1 (length (messages-of run)))))
(define (recent run) (let ([sent (length (messages-of run))]) (if (> sent 0) (- sent (random (min sent 8))) 1)))
(define (of-some-kind run)
  (let go ([messages (messages-of run)] [k 1] [kinds '()])
    (cond [(null? messages) (if (null? kinds) 1 (let ([numbers (cdr (one-of kinds))]) (if (chance 0.5) (car numbers) (one-of numbers))))]
          [(assv (vector-ref (field |field body| (field |field message| (car messages))) 0) kinds)
           => (lambda (kind) (set-cdr! kind (cons k (cdr kind))) (go (cdr messages) (+ k 1) kinds))]
          [else (go (cdr messages) (+ k 1) (cons (list (vector-ref (field |field body| (field |field message| (car messages))) 0) k) kinds))])))
(define (a-link run) (let ([c (a-client run)] [s (server-node (a-server run))]) (if (chance 0.5) (list c s) (list s c))))

; A client is asked to leave, and is served until it left, or its leave fails.
(define (leave run)
  (let ([c (a-client run)] [s (a-server run)])
    (put run (list 'app c (list 'leave s)))
    (for-each (lambda (i) (drain run)) (range 0 (one-of '(1 2 6))))
    (when (chance 0.3) (put run (list 'app c (an-ask run))) (drain run))))
; Clients want more files than they may have locks of.
(define (crowd run)
  (let ([c (a-client run)])
    (for-each (lambda (i) (put run (list 'app (if (chance 0.8) c (a-client run)) (an-ask run))) (when (chance 0.4) (drain run))) (range 0 (from-to 2 6)))
    (drain run)
    (put run (list 'tick c))
    (drain run)))

; A file grows by many pages at once.
(define (grow run)
  (let ([c (a-client run)] [f (list (a-server run) (one-of (drawn-inodes run)))] [most (list-ref (list-ref (drawn-head run) 6) 4)])
    (for-each (lambda (p) (put run (list 'app c (list 'write f p (a-page))))) (range 0 (min most (one-of '(2 5 66 70)))))
    (drain run)))

; A client loses a page: its write fails in flush, and its lease ends. Then it is asked to leave.
(define (lease-date run c s)
  (let* ([site (list-ref (sites-of run) (- c 1))] [session (field |field session| (list-ref (field |field associations| (field |field state| (field |field node| site))) (- s 1)))])
    (and (some? session) (number-of (field |field date| (field |field lease| (vector-ref session 1)))))))
(define (lose-page run)
  (let* ([c (a-client run)] [s (a-server run)] [f (list s (one-of (drawn-inodes run)))]
         [go (lambda (age) (let ([date (lease-date run c s)]) (when date (advance run (- c 1) (max 0 (- (+ date age) (clock-of run (- c 1))))))))])
    (put run (list 'app c (list 'write f 0 (a-page))))
    (drain run)
    (drain run)
    (go (list-ref (settings-of run) 3))
    (put run (list 'tick c))
    (for-each (lambda (k) (put run (list 'report k #f))) (open-commands run))
    (go (lease-of run))
    (put run (list 'tick c))
    (put run (list 'app c (list 'leave s)))
    (drain run)
    (drain run)))

; What may be done next, and how often. If many asks are for names or cuts, what serves them is done more often.
(define (work run) (put run (list 'app (a-client run) (an-ask run))) (drain run))
(define deeds
  `((30 . ,work)
    (8 . ,(lambda (run) (put run (list 'app (a-client run) (an-ask run)))))
    (12 . ,drain)
    (10 . ,(lambda (run) (let ([fresh (drawn-fresh run)]) (when (pair? fresh) (put run (list 'deliver (one-of fresh)))))))
    (5 . ,(lambda (run) (put run (list 'deliver (recent run)))))
    (4 . ,(lambda (run) (put run (list 'deliver (old-message run)))))
    (8 . ,(lambda (run) (put run (list 'deliver (of-some-kind run)))))
    (6 . ,to-boundary)
    (3 . ,(lambda (run) (advance run 0 (from-to 1 (one-of (list 2 (lease-of run)))))))
    (6 . ,(lambda (run) (put run (list 'tick (one-of (nodes-of run))))))
    (5 . ,disks)
    (3 . ,(lambda (run) (let ([open (open-commands run)]) (when (pair? open) (put run (list 'effect (one-of open)))))))
    (3 . ,(lambda (run) (let ([open (open-commands run)]) (when (pair? open) (put run (list 'report (one-of open) (chance 0.6)))))))
    (1 . ,(lambda (run) (put run (list 'lose (recent run)))))
    (1 . ,(lambda (run) (put run (cons 'cut (a-link run)))))
    (3 . ,(lambda (run) (put run (cons 'heal (a-link run)))))
    (1 . ,(lambda (run) (put run (list 'crash (a-client run)))))
    (1 . ,(lambda (run) (restart run (a-client run))))
    (1 . ,(lambda (run) (let ([n (server-node (a-server run))]) (put run (list 'crash n)) (when (chance 0.8) (put run (list 'start n))))))
    (3 . ,(lambda (run) (for-each (lambda (n) (when (chance 0.6) (put run (list 'start n)))) (nodes-of run))))
    (4 . ,silence)
    (2 . ,resume)
    (3 . ,mute)
    (1 . ,(lambda (run) (drawn-muted-set! run #f)))
    (3 . ,repeat)))
(define third-deeds `((4 . ,leave) (12 . ,crowd) (2 . ,grow) (3 . ,lose-page)))
; A run of at most so many events, as (head events).
(define (draw seed length-of-run asks)
  (random-seed (+ 1 (modulo seed 4294967290)))
  (let* ([head (draw-head asks)] [nodes (+ (caddr head) (cadddr head))] [is-third (= (car head) 3)]
         [run (make-drawn head (if is-third (third-world-of head) (world-of head)) '() '() (filter (lambda (place) (chance 0.5)) (range 0 nodes))
                          (one-of (if is-third '((2) (2 3) (2 3 4 5) (2 3 4 5 6 7)) '((2) (2) (2 3) (2 10)))) (one-of (if is-third '(1 2 4 80) '(1 1 2)))
                          (one-of '(0.3 0.8 0.95)) (one-of '(0 0 0.05 0.2)) #f (one-of '(0 0 200 600)) asks)]
         [often (lambda (deed) (if (and (memq asks '(names cuts)) (memq (cdr deed) (list drain work repeat))) 4 1))]
         [weighted (map (lambda (deed) (cons (* (often deed) (car deed) (one-of '(1 5 5 20))) (cdr deed))) (if is-third (append deeds third-deeds) deeds))] [total (apply + (map car weighted))])
    (let go ([tries (* 10 length-of-run)])
      (when (and (> tries 0) (< (length (drawn-events run)) length-of-run))
        (let find-deed ([n (random total)] [left weighted])
          (if (< n (caar left)) ((cdar left) run) (find-deed (- n (caar left)) (cdr left))))
        (go (- tries 1))))
    (list head (reverse (drawn-events run)))))
