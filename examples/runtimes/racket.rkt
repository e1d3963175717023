#lang racket/base
;; racket racket.rkt FOLDER DEPTH: writes the heap below `heap` before and after collections of Racket CS, and with errors
;; in it.
;;
;; Racket CS runs on Chez Scheme, whose procedures it reaches by vm-eval: one gives an object's address, which is its name
;; in the lines. Slots are fields and elements. A value that is no object (a small number, a boolean) has a null slot and a
;; data word. No collection runs while it walks. Closures lead into the runtime itself, so a procedure has no slots.
(require ffi/unsafe/vm racket/format racket/list racket/string)
(define folder (vector-ref (current-command-line-arguments) 0))
(define depth (string->number (vector-ref (current-command-line-arguments) 1)))
(vm-eval '(collect-request-handler void))

(define address (vm-eval '($primitive $fxaddress)))
(define collect (vm-eval '($primitive collect)))
(define (immediate? x) (or (fixnum? x) (boolean? x) (char? x) (null? x) (void? x)))
(define (text x)
  (define (escaped c) (if (and (char<? #\space c #\rubout) (not (char=? c #\\))) (string c) (format "\\~a;" (char->integer c))))
  (format "\"~a\"" (string-append* (map escaped (string->list (~a x))))))
(define (data-of x) (if (fixnum? x) x (text (~s x))))

;; The type, the names of the slots, the values in them, and more data words with their names before them.
(define (parts x)
  (cond
    [(pair? x) (values 'pair '(car cdr) (list (car x) (cdr x)) '() '())]
    [(vector? x) (values 'vector '("[]") (vector->list x) '() '())]
    [(box? x) (values 'box '(value) (list (unbox x)) '() '())]
    [(hash? x) (values 'table '("pairs[]") (append* (hash-map x list)) '(count) (list (hash-count x)))]
    [(node? x) (values 'node '(key left right name weight) (rest (vector->list (struct->vector x))) '() '())]
    [(judged? x) (values 'judged '(root by-name cycle big box next) (rest (vector->list (struct->vector x))) '() '())]
    [(flonum? x) (values 'flonum '() '() '(bits) (list (integer-bytes->integer (real->floating-point-bytes x 8) #f)))]
    [(procedure? x) (values 'procedure '() '() '(name) (list (text (object-name x))))]
    [else (values (cond [(string? x) 'string] [(symbol? x) 'symbol] [(number? x) 'number] [else 'other]) '() '() '(text) (list (text x)))]))

(define (write-line out x type slots data)
  (define words (cons (text type) (append data (for/list ([v slots]) (if (immediate? v) (data-of v) 0)))))
  (define references (for/list ([v slots]) (if (immediate? v) "-" (address v))))
  (define size (+ 1 (length slots) (length words)))
  (fprintf out "object ~a ~a/~a ~a\n" (address x) size (length slots) (string-join (map ~a (append references words)))))

(define types (make-hasheq))
(define (add-type! type names data-names)
  (define words (append (list 'type type 'slots) names '(data class) data-names names))
  (hash-set! types type (format "~a\nlabel ~a ~a\n" (string-join (map ~a words)) (text type) type)))

(define (write-heap name)
  (define known (make-hasheqv (list (cons (address heap) #t))))
  (define (found slots)
    (for/list ([x slots] #:unless (or (immediate? x) (hash-ref known (address x) #f)))
      (hash-set! known (address x) #t)
      x))
  (with-output-to (format "~a.txt" name)
    (lambda (out)
      (fprintf out "graph\nroot ~a as judged\n" (address heap))
      (let loop ([level (list heap)])
        (unless (null? level)
          (loop (append* (for/list ([x level])
                           (define-values (type names slots data-names data) (parts x))
                           (add-type! type names data-names)
                           (write-line out x type slots data)
                           (found slots)))))))))
(define (with-output-to name write)
  (call-with-output-file (format "~a/~a" folder name) write #:exists 'truncate))

;; The heap that is judged.
(struct node (key [left #:mutable] [right #:mutable] name weight) #:transparent)
(struct judged (root by-name cycle big box next) #:transparent)
(define (tree depth key add)
  (define n (node key #f #f (format "node ~a" key) (/ key 3.0)))
  (add n)
  (when (> depth 1)
    (set-node-left! n (tree (- depth 1) (* 2 key) add))
    (set-node-right! n (tree (- depth 1) (+ 1 (* 2 key)) add)))
  n)
(define nodes '())
(define heap
  (let* ([root (tree depth 1 (lambda (n) (set! nodes (cons n nodes))))] [count 41])
    (judged root (make-hash (map (lambda (n) (cons (node-name n) n)) nodes)) (list 1 2.5 "x" 'y) (expt 3 200) (box root) (lambda () count))))
(define (garbage n) (for ([i n]) (number->string i)))

(write-heap "before")
(with-output-to "names" (lambda (out) (for ([lines (hash-values types)]) (write-string lines out))))
(printf "before\n")
(for ([name '("minor" "middle" "full")] [from '(0 1 3)] [to '(1 2 3)])
  (garbage 100000)
  (collect from to)
  (write-heap name)
  (printf "collection ~a\n" name))

;; Errors in memory. A structure is a record of Chez: its address has the tag 7, and its fields follow its type.
(define object-ref (vm-eval '($primitive $object-ref)))
(define object-set! (vm-eval '($primitive $object-set!)))
(define (peek x i) (object-ref 'unsigned-64 x (+ 9 (* 8 i))))
(define (poke! x i word) (object-set! 'unsigned-64 x (+ 9 (* 8 i)) word))
(define (plant name x i wrong found)
  (define right (peek x i))
  (poke! x i wrong)
  (write-heap name)
  (poke! x i right)
  (printf "planted ~a ~a\n" name found))
(define changed (node-left (judged-root heap)))
(define other (node-right (judged-root heap)))
(unless (= (peek changed 0) (* 8 (node-key changed))) (error "this Racket lays out its structures otherwise"))
(plant "wrong" changed 2 (peek other 1) "split judged.root.left.right node")
(plant "torn" changed 0 (bitwise-xor (peek changed 0) #x5500) "data judged.root.left node key")
(write-heap "again")
(printf "again\n")
