;; scheme --script chez.ss FOLDER DEPTH: writes the heap below `heap` before and after collections of Chez Scheme, and
;; with errors in it.
;;
;; A file has lines of objects by name, and a name is the object's address. Slots are an object's fields and elements. A
;; value that is no object (a small number, a boolean) has a null slot and a data word. No collection runs while it walks.
(define folder (car (command-line-arguments)))
(define depth (string->number (cadr (command-line-arguments))))
(collect-request-handler void)

(define (address x) (#%$fxaddress x))
(define (immediate? x) (or (fixnum? x) (boolean? x) (char? x) (null? x) (eq? x (void)) (bwp-object? x)))
(define (escaped c)
  (if (and (char<? #\! c #\x7f) (not (char=? c #\\))) (string c) (format "\\x~x;" (char->integer c))))
(define (text x) (format "\"~a\"" (apply string-append (map escaped (string->list (format "~a" x))))))
(define (data-of x) (if (fixnum? x) x (text (format "~s" x))))

;; The type, the names of the slots, the values in them, and more data words with their names before them. A table by
;; address changes its order with each collection, so its cells are not written; the other tables' cells are. The car of
;; a weak pair is a weak slot. Ours leads to an object that is kept, so that it may not be cleared.
(define (parts x)
  (cond
    [(weak-pair? x) (values 'weak-pair '(car cdr) (list (car x) (cdr x)) '() '())]
    [(pair? x) (values 'pair '(car cdr) (list (car x) (cdr x)) '() '())]
    [(vector? x) (values 'vector '("[]") (vector->list x) '() '())]
    [(string? x) (values 'string '() '() '(length text) (list (string-length x) (text x)))]
    [(symbol? x) (values 'symbol '() '() '(text) (list (text x)))]
    [(flonum? x) (let ([bytes (make-bytevector 8)])
                   (bytevector-ieee-double-native-set! bytes 0 x)
                   (values 'flonum '() '() '(bits) (list (bytevector-u64-native-ref bytes 0))))]
    [(number? x) (values 'number '() '() '(digits) (list (text x)))]
    [(box? x) (values 'box '(value) (list (unbox x)) '() '())]
    [(procedure? x) (values 'procedure '("[]") (map (lambda (i) (#%$closure-ref x i)) (iota (#%$closure-length x)))
                            '(code) (list (text (#%$code-name (#%$closure-code x)))))]
    [(eq-hashtable? x) (values 'table-by-address '() '() '(size) (list (hashtable-size x)))]
    [(hashtable? x) (values 'table '("cells[]") (fold-right (lambda (cell all) (cons* (car cell) (cdr cell) all)) '() (vector->list (hashtable-cells x)))
                            '(size) (list (hashtable-size x)))]
    [(record-type-descriptor? x) (values 'record-type '() '() '(name) (list (text (record-type-name x))))]
    [(#%$record? x)
     (let* ([type (#%$record-type-descriptor x)] [fields (vector->list (record-type-field-names type))])
       (values (record-type-name type) (cons 'type fields)
               (cons type (map (lambda (i) ((record-accessor type i) x)) (iota (length fields)))) '() '()))]
    [else (values 'other '() '() '(text) (list (text (format "~s" x))))]))

(define (write-line out x type slots data)
  (define words (cons* (text type) (append data (map (lambda (v) (if (immediate? v) (data-of v) 0)) slots))))
  (fprintf out "object ~a ~a/~a~a~{ ~a~}~{ ~a~}\n" (address x) (+ 1 (length slots) (length words)) (length slots)
    (if (eq? type 'weak-pair) " weak" "") (map (lambda (v) (if (immediate? v) "-" (address v))) slots) words))

(define types (make-eq-hashtable))
(define (write-type type names data-names)
  (unless (hashtable-contains? types type)
    (hashtable-set! types type #t)
    (fprintf map-file "type ~a slots~{ ~a~} data class~{ ~a~}~{ ~a~}\nlabel ~a ~a\n" type names data-names names (text type) type)))
(define (open name) (open-file-output-port (format "~a/~a" folder name) (file-options no-fail) (buffer-mode block) (native-transcoder)))
(define map-file (open "names"))

(define (write-heap name)
  (define out (open (format "~a.txt" name)))
  (define known (make-eqv-hashtable))
  (define queue (list heap))
  (define (find! x last)
    (cond [(or (immediate? x) (hashtable-contains? known (address x))) last]
          [else (hashtable-set! known (address x) #t) (set-cdr! last (list x)) (cdr last)]))
  (hashtable-set! known (address heap) #t)
  (fprintf out "graph\nroot ~a as judged\n" (address heap))
  (let loop ([queue queue] [last queue])
    (unless (null? queue)
      (let-values ([(type names slots data-names data) (parts (car queue))])
        (write-type type names data-names)
        (write-line out (car queue) type slots data)
        (let ([last (fold-left (lambda (last x) (find! x last)) last slots)])
          (loop (cdr queue) last)))))
  (close-port out))

;; The heap that is judged.
(define-record-type node (fields (mutable key) (mutable left) (mutable right) name weight))
(define-record-type judged (fields root by-name cycle big box counter weak))
(define (tree depth key add)
  (let ([n (make-node key #f #f (format "node ~a" key) (/ key 3.0))])
    (add n)
    (when (> depth 1)
      (node-left-set! n (tree (- depth 1) (* 2 key) add))
      (node-right-set! n (tree (- depth 1) (+ 1 (* 2 key)) add)))
    n))
(define heap
  (let* ([nodes '()] [root (tree depth 1 (lambda (n) (set! nodes (cons n nodes))))] [by-name (make-hashtable string-hash string=?)]
         [cycle (list 1 2 3)] [count 41])
    (for-each (lambda (n) (hashtable-set! by-name (node-name n) n)) nodes)
    (set-cdr! (cddr cycle) cycle)
    (make-judged root by-name cycle (expt 3 200) (box root) (lambda () (set! count (+ count 1)) (list count root)) (weak-cons root #f))))
(define (garbage n) (do ([i 0 (+ i 1)]) ((= i n)) (number->string i)))

(write-heap "before")
(close-port map-file)
(printf "before\n")
(for-each
  (lambda (name from to)
    (garbage 100000)
    (collect from to)
    (write-heap name)
    (printf "collection ~a\n" name))
  '("young" "middle" "full") '(0 1 3) '(1 2 3))

;; Errors in memory. A record's address has the tag 7; its first word is its type, and its fields follow.
(define (field-offset i) (+ 1 8 (* 8 i)))
(define (peek x i) (#%$object-ref 'unsigned-64 x (field-offset i)))
(define (poke! x i word) (#%$object-set! 'unsigned-64 x (field-offset i) word))
(define (plant name x i wrong found)
  (let ([right (peek x i)])
    (poke! x i wrong)
    (write-heap name)
    (poke! x i right)
    (printf "planted ~a ~a\n" name found)))
(define changed (node-left (judged-root heap)))
(define other (node-right (judged-root heap)))
(unless (= (peek changed 0) (* 8 (node-key changed))) (error 'chez.ss "this Chez lays out its records otherwise"))
(plant "wrong" changed 2 (peek other 1) "split judged.root.left.right node")
(plant "torn" changed 0 (logxor (peek changed 0) #x5500) "data judged.root.left node key")
(write-heap "again")
(printf "again\n")
