;; clisp -q -q -norc clisp.lisp FOLDER DEPTH: writes the heap below *heap* before and after collections of CLISP, and with
;; errors in it.
;;
;; A file has lines of objects by name, and a name is the object's address. Slots are an object's fields, elements and
;; pairs. A value that is no object (a small number, a letter) has a null slot and a data word. Nothing keeps CLISP from
;; collecting. So the walk first finds all objects, and then asks for all addresses in one loop that allocates nothing.
(defvar *folder* (first ext:*args*))
(defvar *depth* (parse-integer (second ext:*args*)))
(defun place-of (x) (sys::address-of x))
(defun immediate-p (x) (or (typep x 'fixnum) (characterp x) (null x) (eq x t)))
(defun text (x)
  (with-output-to-string (out)
    (write-char #\" out)
    (loop for c across (princ-to-string x)
          do (if (and (char< #\Space c #\Rubout) (char/= c #\\)) (write-char c out) (format out "\\~d;" (char-code c))))
    (write-char #\" out)))
(defun data-of (x) (cond ((typep x 'fixnum) x) ((immediate-p x) (text x)) (t 0)))
(defstruct node key left right name weight)
(defstruct judged root by-name big list)

;; The type, the names of the slots, the values in them, and more data words.
(defun parts (x)
  (typecase x
    (cons (values "cons" '("car" "cdr") (list (car x) (cdr x)) nil))
    (string (values "string" nil nil (list (text x))))
    (symbol (values "symbol" nil nil (list (text x))))
    (number (values "number" nil nil (list (text x))))
    (simple-vector (values "vector" '("[]") (coerce x 'list) nil))
    (hash-table (values "table" '("pairs[]") (loop for k being the hash-keys of x using (hash-value v) collect k collect v) nil))
    (node (values "node" '("key" "left" "right" "name" "weight")
                  (list (node-key x) (node-left x) (node-right x) (node-name x) (node-weight x)) nil))
    (judged (values "judged" '("root" "by-name" "big" "list") (list (judged-root x) (judged-by-name x) (judged-big x) (judged-list x)) nil))
    (t (values "other" nil nil (list (text (type-of x)))))))

(defvar *types* (make-hash-table :test 'equal))
(defun add-type (type names data)
  (setf (gethash type *types*) (format nil "type ~a slots~{ ~a~} data class~:[~; text~]~{ ~a~}~%label \"~a\" ~a~%" type names data names type type)))

(defun write-objects (out lines places)
  (format out "graph~%root ~d as judged~%" (svref places 0))
  (loop for i from 0 for (type slots data) in lines do
    (format out "object ~d ~d/~d~{ ~a~} \"~a\"~{ ~a~}~%" (svref places i) (+ 2 (length slots) (length data)) (length slots)
            (mapcar (lambda (number) (if number (svref places number) "-")) slots) type data)))

(defun write-heap (step)
  (let ((numbers (make-hash-table :test 'eq)) (all (make-array 1000 :adjustable t :fill-pointer 0)) (lines nil))
    (flet ((number-of (x) (unless (immediate-p x) (or (gethash x numbers) (setf (gethash x numbers) (vector-push-extend x all))))))
      (number-of *heap*)
      (loop for i from 0 while (< i (length all)) do
        (multiple-value-bind (type names slots data) (parts (aref all i))
          (add-type type names data)
          (push (list type (mapcar #'number-of slots) (append data (mapcar #'data-of slots))) lines))))
    (let ((places (make-array (length all) :initial-element 0)))
      (dotimes (i (length all)) (setf (svref places i) (place-of (aref all i))))
      (with-open-file (out (format nil "~a/~a.txt" *folder* step) :direction :output) (write-objects out (nreverse lines) places)))))

;; The heap that is judged, and what is garbage before each collection.
(defvar *garbage* (list nil nil nil))
(defun tree (depth key add)
  (let ((node (make-node :key key :name (format nil "node ~d" key) :weight (/ key 3d0))))
    (funcall add node)
    (push (make-string 30) (nth (mod key 3) *garbage*))
    (when (> depth 1)
      (setf (node-left node) (tree (1- depth) (* 2 key) add) (node-right node) (tree (1- depth) (1+ (* 2 key)) add)))
    node))
(defvar *heap*
  (let ((by-name (make-hash-table :test 'equal)))
    (make-judged :root (tree *depth* 1 (lambda (node) (setf (gethash (node-name node) by-name) node)))
                 :by-name by-name :big (expt 3 200) :list (list 1 2.5d0 'car))))

(ext:gc)
(write-heap "before")
(with-open-file (out (format nil "~a/names" *folder*) :direction :output)
  (loop for lines being the hash-values of *types* do (write-string lines out)))
(format t "before~%")
(loop for step in '("first" "second" "third") for i from 0 do
  (setf (nth i *garbage*) nil)
  (ext:gc)
  (write-heap step)
  (format t "collection ~a~%" step))

;; Errors in memory. A structure's fields follow its mark, its header and its type; a number is 64 times itself and 7.
(defun word-at (at) (ffi:memory-as (ffi:unsigned-foreign-address at) 'ffi:uint64))
(defun (setf word-at) (word at) (ffi::write-memory-as word (ffi:unsigned-foreign-address at) 'ffi:uint64 0))
(defun field (x slot) (+ (logandc2 (place-of x) 7) 24 (* 8 slot)))
(defun plant (step x slot wrong where)
  (let ((right (word-at (field x slot))))
    (setf (word-at (field x slot)) wrong)
    (write-heap step)
    (setf (word-at (field x slot)) right))
  (format t "planted ~a ~a~%" step where))
(let ((node (node-left (judged-root *heap*))) (other (node-right (judged-root *heap*))))
  (unless (= (word-at (field node 0)) (+ 7 (* 64 (node-key node)))) (error "this CLISP lays out its structures otherwise"))
  (plant "wrong" node 2 (place-of (node-left other)) "split judged.root.left.right node")
  (plant "torn" node 0 (+ 7 (* 64 1000)) "data judged.root.left node key"))
(write-heap "again")
(format t "again~%")
