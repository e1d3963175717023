;; sbcl --script sbcl.lisp FOLDER DEPTH: writes the heap below *heap* before and after collections of SBCL, and with
;; errors in it.
;;
;; A file has lines of objects by name, and a name is the object's tagged address. The words come from memory, so the
;; walk sees a stale slot: a word with a pointer's tag that `make-lisp-obj` does not take for an object is written as it
;; is, and no object has that name. A word that is no pointer has a null slot and a data word.
(setf (sb-ext:bytes-consed-between-gcs) 1500000000)
(defvar *folder* (second sb-ext:*posix-argv*))
(defvar *depth* (parse-integer (third sb-ext:*posix-argv*)))
(defvar *heap*) (defvar *old*) ; what is judged, and where a node was before the last collection

(defun address (x) (sb-kernel:get-lisp-obj-address x))
(defun word-at (at) (sb-sys:sap-ref-word (sb-sys:int-sap at) 0))
(defun (setf word-at) (word at) (setf (sb-sys:sap-ref-word (sb-sys:int-sap at) 0) word))
(defun words-of (x tag from count) (loop for i from from below (+ from count) collect (word-at (+ (- (address x) tag) (* 8 i)))))
(defun pointer-p (word) (and (= 3 (logand word 3)) (/= word (address nil)))) ; nil never moves
(defun text (x)
  (format nil "\"~{~a~}\"" (loop for c across (princ-to-string x)
                                 collect (if (and (char<= #\! c #\~) (char/= c #\\)) c (format nil "\\x~x;" (char-code c))))))
(defun place (x slot) (+ (- (address x) sb-vm:instance-pointer-lowtag) (* 8 (+ sb-vm:instance-slots-offset slot))))

;; The type, the names of the slots, the words in them, and more data words with their names before them.
(defun parts (x)
  (typecase x
    (cons (values "cons" '("car" "cdr") (words-of x sb-vm:list-pointer-lowtag 0 2)))
    (simple-vector (values "vector" '("[]") (words-of x sb-vm:other-pointer-lowtag 2 (length x))))
    (string (values "string" nil nil '("length" "text") (list (length x) (text x))))
    (symbol (values "symbol" nil nil '("name") (list (text (prin1-to-string x)))))
    (double-float (values "double" nil nil '("bits") (list (sb-kernel:double-float-bits x))))
    (number (values "number" nil nil '("digits") (list (text x))))
    (hash-table (values "table" '("pairs[]")
                        (loop for key being the hash-keys of x using (hash-value value) collect (address key) collect (address value))
                        '("count") (list (hash-table-count x))))
    (function (values "function" '("[]") (when (sb-kernel:closurep x)
                                           (loop for i below (1- (sb-kernel:get-closure-length x))
                                                 collect (address (sb-kernel:%closure-index-ref x i))))))
    (structure-object (structure-parts x))
    (t (values "other" nil nil '("type") (list (text (type-of x)))))))

(defun structure-parts (x)
  (let ((names nil) (slots nil) (data-names nil) (data nil))
    (dolist (slot (reverse (sb-kernel:dd-slots (sb-kernel:find-defstruct-description (type-of x)))))
      (let ((word (word-at (place x (sb-kernel:dsd-index slot)))) (name (string-downcase (sb-kernel:dsd-name slot))))
        (if (eq (sb-kernel:dsd-raw-type slot) t)
            (progn (push word slots) (push name names))
            (progn (push word data) (push name data-names)))))
    (values (string-downcase (type-of x)) names slots data-names data)))

(defun write-line-of (out x type slots data)
  (format out "object ~d ~d/~d~{ ~a~} ~a~{ ~a~}~{ ~d~}~%" (address x) (+ 2 (length data) (* 2 (length slots))) (length slots)
          (mapcar (lambda (word) (if (pointer-p word) word "-")) slots) (text type) data
          (mapcar (lambda (word) (if (pointer-p word) 0 word)) slots)))

(defvar *types* (make-hash-table :test 'equal))
(defun add-type (type names data-names)
  (setf (gethash type *types*) (format nil "type ~a slots~{ ~a~} data class~{ ~a~}~{ ~a~}~%label ~a ~a~%"
                                       type names data-names names (text type) type)))

(defmacro with-file ((out name) &body body)
  `(with-open-file (,out (format nil "~a/~a" *folder* ,name) :direction :output :if-exists :supersede) ,@body))

(defun write-heap (name)
  (sb-sys:without-gcing
    (with-file (out (format nil "~a.txt" name))
      (let ((known (make-hash-table)) (queue (make-array 1000 :adjustable t :fill-pointer 0)))
        (flet ((find-object (x) (unless (gethash (address x) known) (setf (gethash (address x) known) t) (vector-push-extend x queue))))
          (find-object *heap*)
          (format out "graph~%root ~d as judged~%" (address *heap*))
          (loop for i from 0 while (< i (length queue)) do
            (multiple-value-bind (type names slots data-names data) (parts (aref queue i))
              (add-type type names data-names)
              (write-line-of out (aref queue i) type slots data)
              (dolist (word slots)
                (when (pointer-p word)
                  (multiple-value-bind (x is-object) (sb-kernel:make-lisp-obj word nil) (when is-object (find-object x))))))))))))

;; The heap that is judged.
(defstruct node key left right name (weight 0d0 :type double-float))
(defstruct judged root by-name cycle big next double symbol)
(defun tree (depth key add)
  (let ((node (make-node :key key :name (format nil "node ~d" key) :weight (/ key 3d0))))
    (funcall add node)
    (when (> depth 1)
      (setf (node-left node) (tree (1- depth) (* 2 key) add) (node-right node) (tree (1- depth) (1+ (* 2 key)) add)))
    node))
(defun build ()
  (let* ((nodes nil) (root (tree *depth* 1 (lambda (node) (push node nodes)))) (by-name (make-hash-table :test 'equal)) (count 41)
         (cycle (list 1 2 3)))
    (dolist (node nodes) (setf (gethash (node-name node) by-name) node))
    (setf (cdr (last cycle)) cycle)
    (make-judged :root root :by-name by-name :cycle cycle :big (expt 3 200) :next (lambda () (incf count)) :double 2.5d0 :symbol 'car)))
(setf *heap* (build))
(defun garbage () (dotimes (i 300000) (make-string 10)))

(sb-ext:gc :gen 0) ; make-lisp-obj takes no cons of a page that is being filled
(write-heap "before")
(with-file (out "names") (loop for lines being the hash-values of *types* do (write-string lines out)))
(format t "before~%")
(loop for (name . arguments) in '(("young" :gen 1) ("middle" :gen 2) ("full" :full t)) do
  (garbage)
  (setf *old* (address (node-right (node-left (judged-root *heap*)))))
  (apply #'sb-ext:gc arguments)
  (write-heap name)
  (format t "collection ~a~%" name))

;; Errors in memory. A number that is no larger than a word is twice itself there.
(defun plant (name x slot wrong found)
  (sb-sys:without-gcing
    (let* ((at (place x slot)) (right (word-at at)))
      (setf (word-at at) wrong)
      (write-heap name)
      (setf (word-at at) right)))
  (format t "planted ~a ~a~%" name found))
(let* ((root (judged-root *heap*)) (node (node-left root)) (other (node-right root)))
  (unless (= (word-at (place node 0)) (* 2 (node-key node))) (error "this SBCL lays out its structures otherwise"))
  (plant "stale" node 2 *old* "stale judged.root.left.right node")
  (plant "wrong" node 2 (address (node-left other)) "split judged.root.left.right node")
  (plant "torn" node 0 (logxor (word-at (place node 0)) #x5500) "data judged.root.left node key"))
(write-heap "again")
(format t "again~%")
