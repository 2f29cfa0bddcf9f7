"""Sessions one after the other over one folder, for tools/checks/program.

What must be answered and left is written down by hand.
"""

# Each begins in an empty folder: its name, the options, and sessions. Each session has its
# answers, the files that are there after it, and the tables of a check: the level, the number and
# the entries of each. The last two are None if they are not looked at.
SESSIONS = [
    ("they keep what they saw", "", [
        ("open new; put 61 31; snapshot; put 61 32; put 62 33; get 61 1; get 62 1; get 61; iter 1; iter; first 1; next 1; last 2; prev 2; "
         "prev 2; release 1; get 61 1; first 1; drop 1; next 1; close; open; snapshot; first 2; iter",
         "ok; ok; snapshot 1; ok; ok; value 31; none; value 32; iter 1; iter 2; at 61 31; end; at 62 33; at 61 32; end; ok; "
         "refused 8 NoSnapshot; at 61 31; ok; refused 9 NoIterator; ok; ok; snapshot 2; refused 9 NoIterator; iter 3",
         None, None),
    ]),
    ("an iterator sees no later batch", "", [
        ("open new; put 61 31; put 62 32; put 63 33; iter; seek 1 62; put 6262 34; del 63; next 1; next 1; next 1; prev 1; iter; last 2",
         "ok; ok; ok; ok; iter 1; at 62 32; ok; ok; at 63 33; end; refused 10 NoPlace; refused 10 NoPlace; iter 2; at 6262 34",
         None, None),
    ]),
    ("an iterator turns anywhere", "", [
        ("open new; write put 63 33 put 61 30 put 61 31; put 62 32; iter; seek 1 62; next 1; prev 1; prev 1; next 1; prev 1; prev 1; "
         "prev 1; seek 1 -; seek 1 6100; seek 1 6300; next 1; last 1; next 1; first 1",
         "ok; ok; ok; iter 1; at 62 32; at 63 33; at 62 32; at 61 31; at 62 32; at 61 31; end; refused 10 NoPlace; at 61 31; at 62 32; "
         "end; refused 10 NoPlace; at 63 33; end; at 61 31",
         None, None),
    ]),
    ("deleted keys have no pair", "", [
        ("open new; iter; first 1; last 1; seek 1 -; write put 61 - put - 31 del 62; snapshot; del 61; iter; first 2; next 2; iter 1; "
         "last 3; prev 3; first 1",
         "ok; iter 1; end; end; end; ok; snapshot 1; ok; iter 2; at - 31; end; iter 3; at 61 -; at - 31; end",
         None, None),
    ]),
    ("causes come in their order", "", [
        ("snapshot; release 1; iter 1; seek 1 61; drop 1; open new; release 0; iter 1; prev 3; drop 1; snapshot; release 1; release 1; "
         "iter; next 1; drop 1; drop 1",
         "refused 16 NotOpen; refused 16 NotOpen; refused 16 NotOpen; refused 16 NotOpen; refused 16 NotOpen; ok; refused 8 NoSnapshot; "
         "refused 8 NoSnapshot; refused 9 NoIterator; refused 9 NoIterator; snapshot 1; ok; refused 8 NoSnapshot; iter 1; "
         "refused 10 NoPlace; ok; refused 9 NoIterator",
         None, None),
    ]),
    ("five files, one entry after the other", "--write-buffer 1 --level0-files 5", [
        ("open new; put 61 31; work 9; work 9; put 62 32; work 9; work 9; put 63 33; work 9; work 9; put 64 34; work 9; work 9; "
         "put 65 35; work 9; work 9; work 1; snapshot; put 61 36; work 1; work 1; work 1; work 1; get 61 1; get 61; work 1; work 1; "
         "work 1; get 61 1; get 61; get 65; close",
         "ok; ok; worked; worked; ok; worked; worked; ok; worked; worked; ok; worked; worked; ok; worked; worked; worked; snapshot 1; ok; "
         "worked; worked; worked; worked; value 31; value 36; worked; worked; idle; value 31; value 36; value 35; ok",
         "000013.ldb 000014.log 000015.ldb CURRENT LOCK MANIFEST-000001", "table 0 15 1; table 1 13 5"),
    ]),
    ("views before and meanwhile", "--write-buffer 1 --level0-files 2 --base-bytes 100", [
        ("open new; put 61 31; put 62 31; work 9; work 9; work 9; snapshot; put 61 32; del 62; put 63 32; work 9; work 9; work 1; "
         "snapshot; iter; put 61 33; del 63; iter 1; first 1; work 1; first 2; work 1; next 2; work 2; next 1; next 1; last 1; prev 1; "
         "prev 1; prev 2; prev 2; last 2; next 2; get 61; get 62; get 63; get 61 1; get 62 1; get 63 1; get 61 2; get 62 2; get 63 2; "
         "release 1; iter; first 3; work 9; work 9; work 1; first 2; work 9; next 2; next 2; next 3; last 1; work 9; get 61; get 62; "
         "get 63; get 61 1; get 61 2; get 62 2; get 63 2; drop 1; drop 2; drop 3; work 9; close",
         "ok; ok; ok; worked; worked; idle; snapshot 1; ok; ok; ok; worked; worked; worked; snapshot 2; iter 1; ok; ok; iter 2; at 61 32; "
         "worked; at 61 31; worked; at 62 31; worked; at 63 32; end; at 63 32; at 61 32; end; at 61 31; end; at 62 31; end; value 33; "
         "none; none; value 31; value 31; none; value 32; none; value 32; ok; iter 3; at 61 33; worked; worked; worked; at 61 31; worked; "
         "at 62 31; end; end; at 63 32; idle; value 33; none; none; refused 8 NoSnapshot; value 32; none; value 32; ok; ok; ok; idle; ok",
         "000008.log 000009.ldb 000010.ldb CURRENT LOCK MANIFEST-000001", "table 0 9 2; table 2 10 2"),
        ("open; get 61; get 62; get 63; iter; last 1; prev 1; work 9; close",
         "ok; value 33; none; none; iter 1; at 61 33; end; idle; ok",
         "000009.ldb 000010.ldb 000012.log CURRENT LOCK MANIFEST-000011", "table 0 9 2; table 2 10 2"),
    ]),
    ("a compaction given up and begun again", "--write-buffer 1 --file-bytes 1 --level0-files 2", [
        ("open new; put 61 31; put 62 31; work 9; work 9; put 62 32; put 63 32; work 9; work 9; work 3; close",
         "ok; ok; ok; worked; worked; ok; ok; worked; worked; worked; ok",
         "000004.ldb 000005.log 000006.ldb 000007.ldb 000008.ldb CURRENT LOCK MANIFEST-000001", "table 0 4 2; table 0 6 2"),
        ("open; get 61; get 62; get 63; close",
         "ok; value 31; value 32; value 32; ok",
         "000004.ldb 000006.ldb 000010.log CURRENT LOCK MANIFEST-000009", "table 0 4 2; table 0 6 2"),
        ("open; work 1; work 1; work 1; get 62; work 1; work 1; get 61; get 62; get 63; iter; first 1; next 1; next 1; next 1; close",
         "ok; worked; worked; worked; value 32; worked; idle; value 31; value 32; value 32; iter 1; at 61 31; at 62 32; at 63 32; end; ok",
         "000012.log 000013.ldb 000014.ldb 000015.ldb CURRENT LOCK MANIFEST-000011", "table 1 13 1; table 1 14 1; table 1 15 1"),
    ]),
    ("down to level 4", "--write-buffer 1 --block-bytes 1 --file-bytes 1 --level0-files 1 --base-bytes 1 --cache-blocks 1", [
        ("open new; put 61 31; put 62 32; put 63 33; work 9; work 9; work 0; work 0; work 0; work 9; work 9; work 9; work 9; work 9; "
         "work 9; work 9; work 9; work 9; del 62; work 9; work 9; work 9; work 9; work 9; work 9; work 9; get 61; get 62; get 63; close",
         "ok; ok; ok; ok; worked; worked; worked; worked; worked; worked; worked; worked; worked; worked; worked; worked; worked; worked; "
         "ok; worked; worked; worked; worked; worked; worked; idle; value 31; none; value 33; ok",
         "000014.ldb 000016.ldb 000017.log CURRENT LOCK MANIFEST-000001", "table 4 14 1; table 4 16 1"),
    ]),
    ("one pair, and once more", "", [
        ("open new; put 61 31; compact all; close",
         "ok; ok; ok; ok",
         "000002.log 000003.log 000004.ldb 000005.ldb CURRENT LOCK MANIFEST-000001", "table 6 5 1"),
        ("open; get 61; compact all; get 61; work 9; close",
         "ok; value 31; ok; value 31; idle; ok",
         "000007.log 000008.ldb CURRENT LOCK MANIFEST-000006", "table 6 8 1"),
    ]),
    ("what an open finds in logs", "", [
        ("open new; put 61 31; put 62 31; close",
         "ok; ok; ok; ok",
         "000002.log CURRENT LOCK MANIFEST-000001", ""),
        ("open; put 62 32; del 61; compact all; get 61; get 62; close",
         "ok; ok; ok; ok; none; value 32; ok",
         "000002.log 000004.log 000005.ldb 000006.log 000007.ldb 000008.ldb CURRENT LOCK MANIFEST-000003", "table 6 8 1"),
    ]),
    ("an iterator made before", "", [
        ("open new; put 61 31; put 62 32; put 63 33; iter; seek 1 62; put 6262 34; del 63; compact all; next 1; next 1; next 1; close",
         "ok; ok; ok; ok; iter 1; at 62 32; ok; ok; ok; at 63 33; end; refused 10 NoPlace; ok",
         "000002.log 000003.log 000004.ldb 000005.ldb CURRENT LOCK MANIFEST-000001", "table 6 5 3"),
    ]),
    ("an iterator made behind it", "", [
        ("open new; put 61 31; put 63 33; compact all; put 62 32; iter; seek 1 62; next 1; prev 1; prev 1; prev 1; prev 1; close",
         "ok; ok; ok; ok; ok; iter 1; at 62 32; at 63 33; at 62 32; at 61 31; end; refused 10 NoPlace; ok",
         "000002.log 000003.log 000004.ldb 000005.ldb CURRENT LOCK MANIFEST-000001", "table 6 5 2"),
    ]),
    ("tables under an iterator", "", [
        ("open new; put 61 31; put 62 32; compact all; iter; first 1; put 61 33; del 62; compact all; work 9; next 1; prev 1; get 61; "
         "get 62; close",
         "ok; ok; ok; ok; iter 1; at 61 31; ok; ok; ok; idle; at 62 32; at 61 31; value 33; none; ok",
         "000005.ldb 000006.log 000008.ldb CURRENT LOCK MANIFEST-000001", "table 6 8 1"),
    ]),
    ("an iterator dropped", "", [
        ("open new; put 61 31; compact all; iter; compact all; drop 1; work 9; close",
         "ok; ok; ok; iter 1; ok; ok; idle; ok",
         "000003.log 000006.ldb CURRENT LOCK MANIFEST-000001", "table 6 6 1"),
    ]),
    ("what views see", "", [
        ("open new; put 61 31; snapshot; put 61 32; put 61 33; snapshot; del 61; compact all; get 61 1; get 61 2; get 61; close",
         "ok; ok; snapshot 1; ok; ok; snapshot 2; ok; ok; value 31; value 33; none; ok",
         "000002.log 000003.log 000004.ldb 000005.ldb CURRENT LOCK MANIFEST-000001", "table 6 5 3"),
    ]),
    ("views released", "", [
        ("open new; put 61 31; snapshot; put 61 32; put 61 33; snapshot; del 61; compact all; release 1; release 2; compact all; get 61; "
         "close",
         "ok; ok; snapshot 1; ok; ok; snapshot 2; ok; ok; ok; ok; ok; none; ok",
         "000002.log 000003.log 000004.ldb 000005.ldb CURRENT LOCK MANIFEST-000001", ""),
    ]),
    ("a delete above its key", "--write-buffer 1", [
        ("open new; put 61 31; compact all; del 61; work 9; work 9; compact 0; get 61; close",
         "ok; ok; ok; ok; worked; worked; ok; none; ok",
         "000003.log 000005.ldb 000006.log 000007.ldb 000008.ldb CURRENT LOCK MANIFEST-000001", "table 1 8 1; table 6 5 1"),
        ("open; compact all; get 61; close",
         "ok; ok; none; ok",
         "000005.ldb 000008.ldb 000010.log CURRENT LOCK MANIFEST-000009", ""),
    ]),
    ("a sealed memory table", "--write-buffer 1", [
        ("open new; put 61 31; put 62 31; work 9; put 62 32; compact all; get 61; get 62; close",
         "ok; ok; ok; worked; ok; ok; value 31; value 32; ok",
         "000002.log 000003.log 000004.ldb 000005.log 000006.ldb 000007.ldb CURRENT LOCK MANIFEST-000001", "table 6 7 2"),
    ]),
    ("level by level", "--write-buffer 1", [
        ("open new; put 61 31; work 9; work 9; put 7a 32; compact 1; compact 0; work 9; work 9; compact 0; put 6d 33; compact 0; close",
         "ok; ok; worked; worked; ok; ok; ok; worked; worked; ok; ok; ok; ok",
         "000003.log 000005.ldb 000006.log 000007.ldb 000008.ldb CURRENT LOCK MANIFEST-000001", "table 1 5 1; table 1 8 1"),
        ("open; compact 1; compact 2; compact 3; compact 4; compact 5; compact 5; get 61; get 6d; get 7a; close",
         "ok; ok; ok; ok; ok; ok; ok; value 31; value 33; value 32; ok",
         "000005.ldb 000006.log 000008.ldb 000010.log 000011.ldb 000012.ldb 000013.ldb 000014.ldb 000015.ldb CURRENT LOCK MANIFEST-000009", "table 6 15 2"),
    ]),
    ("nothing to compact", "", [
        ("compact 0; compact 6; compact all; open new; compact 6; compact 4294967295; compact 0; compact 5; compact all; close; "
         "compact all",
         "refused 16 NotOpen; refused 16 NotOpen; refused 16 NotOpen; ok; refused 19 BadLevel; refused 19 BadLevel; ok; ok; ok; ok; "
         "refused 16 NotOpen",
         "000002.log CURRENT LOCK MANIFEST-000001", ""),
    ]),
    ("a compaction under way", "--write-buffer 1 --level0-files 2", [
        ("open new; put 61 31; put 62 31; work 9; work 9; put 61 32; put 63 32; work 9; work 9; work 1; compact 3; get 61; get 62; "
         "get 63; work 9; close",
         "ok; ok; ok; worked; worked; ok; ok; worked; worked; worked; ok; value 32; value 31; value 32; idle; ok",
         "000005.log 000007.ldb CURRENT LOCK MANIFEST-000001", "table 1 7 3"),
    ]),
    ("a compaction under way, and then all", "--write-buffer 1 --level0-files 2", [
        ("open new; put 61 31; put 62 31; work 9; work 9; put 61 32; put 63 32; work 9; work 9; work 1; snapshot; del 62; put 64 33; "
         "compact all; get 61; get 62; get 63; get 64; get 62 1; get 64 1; work 9; close",
         "ok; ok; ok; worked; worked; ok; ok; worked; worked; worked; snapshot 1; ok; ok; ok; value 32; none; value 32; value 33; "
         "value 31; none; idle; ok",
         "000008.log 000010.ldb CURRENT LOCK MANIFEST-000001", "table 6 10 5"),
    ]),
    ("a file for each key", "--file-bytes 1", [
        ("open new; put 61 31; put 62 31; put 63 31; compact all; put 62 32; del 63; compact all; work 9; get 61; get 62; get 63; close",
         "ok; ok; ok; ok; ok; ok; ok; ok; idle; value 31; value 32; none; ok",
         "000008.log 000010.ldb 000011.ldb CURRENT LOCK MANIFEST-000001", "table 6 10 1; table 6 11 1"),
    ]),
]  # fmt: skip
