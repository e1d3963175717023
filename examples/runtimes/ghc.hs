{-# LANGUAGE MagicHash, UnboxedTuples #-}
-- walk FOLDER DEPTH: writes the heap below `judged` before and after collections of GHC's copying collector, and with
-- errors in it.
--
-- A file has lines of objects by name, and a name is the closure's address. ghc-heap gives a closure's pointers and its
-- other words; the data words begin with its constructor, or what else it is, and the address of its info table.
-- Indirections are followed, since a collection takes them out. A large nursery (-A1g) keeps collections out of a walk.
module Main (main) where

import Control.Exception (evaluate)
import Control.Monad (forM_, unless)
import Data.Bits (complement, xor, (.&.))
import Data.IORef (IORef, newIORef, readIORef)
import qualified Data.IntSet as Set
import qualified Data.Map.Strict as Map
import Data.Word (Word64)
import Foreign.Ptr (IntPtr (..), Ptr, intPtrToPtr)
import Foreign.Storable (peek, poke)
import GHC.Exts (Int (I#), addr2Int#, anyToAddr#)
import GHC.Exts.Heap hiding (key)
import GHC.IO (IO (..))
import System.Environment (getArgs)
import System.IO
import System.Mem (performMajorGC, performMinorGC)

addressOf :: Box -> IO Int
addressOf (Box value) = IO (\state -> case anyToAddr# value state of (# state', at #) -> (# state', I# (addr2Int# at) .&. complement 7 #))

wordAt :: Int -> Int -> Ptr Word64
wordAt address index = intPtrToPtr (IntPtr (address + 8 * index))

-- What a box leads to, behind indirections.
settle :: Box -> IO (Box, Closure)
settle box@(Box value) = do
  closure <- getClosureData value
  case closure of
    IndClosure {indirectee = target} -> settle target
    BlackholeClosure {indirectee = target} -> settle target
    _ -> return (box, closure)

-- What a closure is, the slots, and the data words.
parts :: Closure -> (String, [Box], [Word64])
parts closure = case closure of
  ConstrClosure {ptrArgs = slots, dataArgs = words', name = constructor} -> (constructor, slots, map fromIntegral words')
  FunClosure {ptrArgs = slots, dataArgs = words'} -> ("function", slots, map fromIntegral words')
  ThunkClosure {ptrArgs = slots, dataArgs = words'} -> ("thunk", slots, map fromIntegral words')
  ArrWordsClosure {bytes = count, arrWords = words'} -> ("words", [], fromIntegral count : map fromIntegral words')
  _ -> ("closure", allClosures closure, [])

-- Writes one object, and returns the objects that it references.
writeObject :: Handle -> (Box, Closure) -> IO [(Int, (Box, Closure))]
writeObject file (box, closure) = do
  address <- addressOf box
  info <- peek (wordAt address 0)
  let (kind, slots, words') = parts closure
  targets <- mapM settle slots
  addresses <- mapM (addressOf . fst) targets
  let size = 3 + length slots + length words'
      words'' = map show addresses ++ show kind : map show (info : words')
  hPutStrLn file (unwords ("object" : show address : (show size ++ "/" ++ show (length slots)) : words''))
  return (zip addresses targets)

writeHeap :: FilePath -> Box -> IO ()
writeHeap path root = withFile path WriteMode $ \file -> do
  hSetBuffering file (BlockBuffering (Just 1000000))
  first <- settle root
  address <- addressOf (fst first)
  hPutStr file ("graph\nroot " ++ show address ++ " as judged\n")
  let walk _ [] [] = return ()
      walk known [] later = walk known (reverse later) []
      walk known (object : rest) later = do
        targets <- writeObject file object
        let add (known', found) (at, target) = if Set.member at known' then (known', found) else (Set.insert at known', target : found)
            (known'', found') = foldl add (known, later) targets
        walk known'' rest found'
  walk (Set.singleton address) [first] []

-- The heap that is judged.
data Node = Leaf | Node {key :: !Int, left :: Node, right :: Node, title :: String, weight :: !Double}
data Judged = Judged {root :: Node, picked :: !Node, byName :: Map.Map String Int, variable :: IORef Int, big :: Integer}

types :: String -- a constructor has its pointers first
types = unlines
  [ "type Judged slots root picked byName variable big data class info", "label \"Judged\" Judged",
    "type Node slots left right title data class info key weight", "label \"Node\" Node", "type : slots head tail data class info", "label \":\" :" ]

tree :: Int -> Int -> Node
tree 0 _ = Leaf
tree depth number = Node number (tree (depth - 1) (2 * number)) (tree (depth - 1) (2 * number + 1)) (show number) (fromIntegral number / 3)

total :: Node -> Int
total Leaf = 0
total node = key node + total (left node) + total (right node) + length (title node)

main :: IO ()
main = do
  [folder, depth] <- getArgs
  number <- newIORef (1 :: Int)
  let (top, names) = (tree (read depth) 1, Map.fromList [(show each, each) | each <- [1 .. 200 :: Int]])
  _ <- evaluate (total top + sum names + sum (map length (Map.keys names)))
  judged <- evaluate Judged {root = top, picked = right (left top), byName = names, variable = number, big = 3 ^ (200 :: Int)}
  let write step = writeHeap (folder ++ "/" ++ step ++ ".txt") (asBox judged)
      say line = putStrLn line >> hFlush stdout
  performMajorGC
  writeFile (folder ++ "/names") types >> write "before" >> say "before"
  forM_ [("minor", performMinorGC), ("full", performMajorGC), ("again_full", performMajorGC)] $ \(step, collect) -> do
    collect
    write step >> say ("collection " ++ step)
  -- Errors in memory, behind the info table.
  let node = left (root judged)
  [at, from] <- mapM (\place -> evaluate place >>= settle . asBox >>= addressOf . fst) [node, right (root judged)]
  was <- peek (wordAt at 4)
  unless (was == fromIntegral (key node)) (ioError (userError "this GHC lays out its constructors otherwise"))
  let plant step index wrong found = do
        before <- peek (wordAt at index)
        poke (wordAt at index) wrong >> write step >> poke (wordAt at index) before
        say ("planted " ++ step ++ " " ++ found)
  peek (wordAt from 1) >>= \wrong -> plant "wrong" 2 wrong "split judged.root.left.right Node"
  plant "torn" 4 (was `xor` 0x5500) "data judged.root.left Node key"
  write "again" >> say "again"
