"""Legs of plotters, and what has to be said of each: the table of tests/cases/captures that tries `nav.group`.

Every byte was worked out by hand. An event is a moment in seconds and a frame, `tick`, or a leg by its name and its source. A leg comes in its five frames, the
last one at this moment and the others a millisecond apart.
"""

# PGN 129284 of 34 bytes, and one byte less: a leg by its name
LEGS = {
    "first": "FF38DF220000FFFFFFFFFFFF5C3DB93E0300000004000000CE175C22EF0597080202",  # 12.3 miles at 92.0 degrees to go, from 3 to 4
    "next": "FF20A1070000FFFFFFFFFFFFB87A677B0400000005000000405264224086A4080202",  # the next waypoint
    "entered": "FF38DF220010FFFFFFFFFFFF5C3DB93E0300000004000000CE175C22EF0597080202",  # the arrival circle is entered
    "passed": "FF38DF220004FFFFFFFFFFFF5C3DB93E0300000004000000CE175C22EF0597080202",  # the perpendicular is passed
    "magnetic": "FF38DF220001FFFFFFFFFFFF5C3DB93E0300000004000000CE175C22EF0597080202",  # magnetic
    "ended": "FF38DF220000FFFFFFFFFFFF5C3DFFFF0300000004000000CE175C22EF0597080202",  # without the bearing
    "trackless": "FF38DF220000FFFFFFFFFFFFFFFFB93E0300000004000000CE175C22EF0597080202",  # without the bearing of the leg
    "extreme": "FFFCFFFFFF00FFFFFFFFFFFF70F567F59F8601009F86010000175BCA002EB6940480",  # the ends of the ranges
    "idle": "FFFFFFFFFFFFFFFFFFFFFFFFFFFFFFFFFFFFFFFFFFFFFFFFFFFFFF7FFFFFFF7FFF7F",  # nothing is there
    "short": "FF38DF220000FFFFFFFFFFFF5C3DB93E0300000004000000CE175C22EF05970802",  # 33 bytes
    "near": "FF2C24000000FFFFFFFFFFFF5C3DB93E0300000004000000CE175C22EF0597080202",  # 92.60 m to go
    "distanceless": "FFFFFFFFFF00FFFFFFFFFFFF5C3DB93E0300000004000000CE175C22EF0597080202",  # without the distance
    "unreferenced": "FF38DF220002FFFFFFFFFFFF5C3DB93E0300000004000000CE175C22EF0597080202",  # a reference that is reserved
    "unplaced": "FF38DF220000FFFFFFFFFFFF5C3DB93E0300000004000000FFFFFF7FEF0597080202",  # without the latitude
    "renumbered": "FF38DF220000FFFFFFFFFFFF5C3DB93EA086010000000000CE175C22EF0597080202",  # from 100000 to 0
}
STEERED = [
    "$GPRMB,A,0.100,L,3,4,5738.7645,N,01424.6911,E,12.3,92.0,9.99,V,A*5A",
    "$GPAPB,A,A,0.100,L,N,V,V,90.0,T,4,92.0,T,92.0,T,A*73", "$GPXTE,A,A,0.100,L,N,A*32",
]
WITHOUT_ERROR = ["$GPRMB,V,,,3,4,5738.7645,N,01424.6911,E,12.3,92.0,9.99,V,N*21", "$GPAPB,V,V,,,N,V,V,90.0,T,4,92.0,T,92.0,T,N*1F", "$GPXTE,V,V,,,N,N*5E"]
IDLE = ["$GPRMB,V,,,,,,,,,,,,V,N*04", "$GPAPB,V,V,,,N,V,V,,T,,,T,,T,N*3C", "$GPXTE,V,V,,,N,N*5E"]
NEXT_WITHOUT_ERROR = [
    "$GPRMB,V,,,4,5,5742.0000,N,01430.0000,E,2.7,181.0,9.99,V,N*26",
    "$GPAPB,V,V,,,N,V,V,180.0,T,5,181.0,T,181.0,T,N*2E", "$GPXTE,V,V,,,N,N*5E",
]
NEXT_STEERED = [
    "$GPRMB,A,0.100,R,4,5,5742.0000,N,01430.0000,E,2.7,181.0,9.99,V,A*43",
    "$GPAPB,A,A,0.100,R,N,V,V,180.0,T,5,181.0,T,181.0,T,A*5C", "$GPXTE,A,A,0.100,R,N,A*2C",
]
# each is a name, more keys, events, and what is said: the moment, the transmission group, the sentences
NAVIGATED = (
    (
        "the second message that names a destination is said", "",
        "1.010 first 23; 2.000 0DF90317#FF3058480000FFFF; 2.010 first 23",
        [
            ("2.000000", "NAVD", ["$IIXTE,A,A,0.100,L,N,A*25"]),
            ("2.010000", "NAVG", STEERED),
        ],
    ),
    (
        "an error from before the destination was named doesn't count", "",
        "1.000 0DF90317#FF3058480000FFFF; 1.010 first 23; 2.010 first 23",
        [
            ("1.000000", "NAVD", ["$IIXTE,A,A,0.100,L,N,A*25"]),
            ("2.010000", "NAVG", WITHOUT_ERROR),
        ],
    ),
    (
        "to starboard of the leg", "",
        "1.010 first 23; 1.020 0DF90317#FF30A8B7FFFFFFFF; 2.010 first 23",
        [
            ("1.020000", "NAVD", ["$IIXTE,A,A,0.100,R,N,A*3B"]),
            ("2.010000", "NAVG", [
                "$GPRMB,A,0.100,R,3,4,5738.7645,N,01424.6911,E,12.3,92.0,9.99,V,A*44",
                "$GPAPB,A,A,0.100,R,N,V,V,90.0,T,4,92.0,T,92.0,T,A*6D", "$GPXTE,A,A,0.100,R,N,A*2C",
            ]),
        ],
    ),
    (
        "the first message of the next waypoint isn't said, and the old error is gone", "",
        "1.010 first 23; 1.020 0DF90317#FF3058480000FFFF; 2.010 first 23; 2.020 0DF90317#FF3058480000FFFF; 3.010 next 23; 4.010 next 23; "
        "4.020 0DF90317#FF30A8B7FFFFFFFF; 5.010 next 23",
        [
            ("1.020000", "NAVD", ["$IIXTE,A,A,0.100,L,N,A*25"]),
            ("2.010000", "NAVG", STEERED),
            ("2.020000", "NAVD", ["$IIXTE,A,A,0.100,L,N,A*25"]),
            ("4.010000", "NAVG", NEXT_WITHOUT_ERROR),
            ("4.020000", "NAVD", ["$IIXTE,A,A,0.100,R,N,A*3B"]),
            ("5.010000", "NAVG", NEXT_STEERED),
        ],
    ),
    (
        "an error between the two messages that name a destination counts", "",
        "1.010 first 23; 1.020 0DF90317#FF3058480000FFFF; 2.010 first 23; 2.990 0DF90317#FF30A8B7FFFFFFFF; 3.010 next 23; "
        "3.990 0DF90317#FF30A8B7FFFFFFFF; 4.010 next 23",
        [
            ("1.020000", "NAVD", ["$IIXTE,A,A,0.100,L,N,A*25"]),
            ("2.010000", "NAVG", STEERED),
            ("2.990000", "NAVD", ["$IIXTE,A,A,0.100,R,N,A*3B"]),
            ("3.990000", "NAVD", ["$IIXTE,A,A,0.100,R,N,A*3B"]),
            ("4.010000", "NAVG", NEXT_STEERED),
        ],
    ),
    (
        "an error of a navigation that is terminated is none", "",
        "1.010 first 23; 1.020 0DF90317#FF7058480000FFFF; 2.010 first 23",
        [
            ("1.020000", "NAVD", ["$IIXTE,A,A,0.100,L,N,A*25"]),
            ("2.010000", "NAVG", WITHOUT_ERROR),
        ],
    ),
    (
        "the arrival circle is entered", "",
        "1.010 first 23; 1.020 0DF90317#FF3058480000FFFF; 2.010 entered 23",
        [
            ("1.020000", "NAVD", ["$IIXTE,A,A,0.100,L,N,A*25"]),
            ("2.010000", "NAVG", [
                "$GPRMB,A,0.100,L,3,4,5738.7645,N,01424.6911,E,12.3,92.0,9.99,A,A*4D",
                "$GPAPB,A,A,0.100,L,N,A,V,90.0,T,4,92.0,T,92.0,T,A*64", "$GPXTE,A,A,0.100,L,N,A*32",
            ]),
        ],
    ),
    (
        "the perpendicular is passed", "",
        "1.010 first 23; 1.020 0DF90317#FF3058480000FFFF; 2.010 passed 23",
        [
            ("1.020000", "NAVD", ["$IIXTE,A,A,0.100,L,N,A*25"]),
            ("2.010000", "NAVG", [
                "$GPRMB,A,0.100,L,3,4,5738.7645,N,01424.6911,E,12.3,92.0,9.99,A,A*4D",
                "$GPAPB,A,A,0.100,L,N,V,A,90.0,T,4,92.0,T,92.0,T,A*64", "$GPXTE,A,A,0.100,L,N,A*32",
            ]),
        ],
    ),
    (
        "magnetic bearings are said in APB alone", "",
        "1.010 magnetic 23; 1.020 0DF90317#FF3058480000FFFF; 2.010 magnetic 23",
        [
            ("1.020000", "NAVD", ["$IIXTE,A,A,0.100,L,N,A*25"]),
            ("2.010000", "NAVG", ["$GPAPB,A,A,0.100,L,N,V,V,90.0,M,4,92.0,M,92.0,M,A*6A", "$GPXTE,A,A,0.100,L,N,A*32"]),
        ],
    ),
    (
        "by a reference that isn't known there are no bearings", "",
        "1.010 unreferenced 23",
        [
            ("1.010000", "NAVG", ["$GPRMB,V,,,3,4,5738.7645,N,01424.6911,E,12.3,,9.99,V,N*34", "$GPAPB,V,V,,,N,V,V,,T,4,,T,,T,N*08", "$GPXTE,V,V,,,N,N*5E"]),
        ],
    ),
    (
        "the error of another device is never taken", "",
        "1.010 first 23; 1.020 0DF90318#FF3058480000FFFF; 2.010 first 23",
        [
            ("1.020000", "NAVD", ["$IIXTE,A,A,0.100,L,N,A*25"]),
            ("2.010000", "NAVG", WITHOUT_ERROR),
        ],
    ),
    (
        "an idle plotter of a smaller NAME doesn't speak beside one that navigates", "",
        "1.010 idle 23; 1.510 first 24; 1.520 0DF90318#FF3058480000FFFF; 2.010 idle 23; 2.510 first 24; 3.010 idle 23; 5.010001 idle 23; 5.020 idle 23",
        [
            ("1.010000", "NAVG", IDLE),
            ("1.520000", "NAVD", ["$IIXTE,A,A,0.100,L,N,A*25"]),
            ("2.510000", "NAVG", STEERED),
            ("5.010001", "NAVG", IDLE),
            ("5.020000", "NAVG", IDLE),
        ],
    ),
    (
        "that the navigation ends is said at once", "",
        "1.010 first 23; 1.020 0DF90317#FF3058480000FFFF; 2.010 first 23; 2.510 ended 23",
        [
            ("1.020000", "NAVD", ["$IIXTE,A,A,0.100,L,N,A*25"]),
            ("2.010000", "NAVG", STEERED),
            ("2.510000", "NAVG", [
                "$GPRMB,V,0.100,L,3,4,5738.7645,N,01424.6911,E,12.3,,9.99,V,N*57",
                "$GPAPB,V,V,0.100,L,N,V,V,90.0,T,4,,T,,T,N*7C", "$GPXTE,A,A,0.100,L,N,A*32",
            ]),
        ],
    ),
    (
        "of two that navigate the smaller NAME is said, and the other one after its time", "",
        "1.010 first 23; 1.020 next 24; 2.010 first 23; 2.020 next 24; 4.510 next 24; 4.510001 tick; 4.520 next 24",
        [
            ("2.010000", "NAVG", WITHOUT_ERROR),
            ("4.520000", "NAVG", NEXT_WITHOUT_ERROR),
        ],
    ),
    (
        "an error as old as the timeout counts", "",
        "1.000 first 23; 1.010 0DF90317#FF3058480000FFFF; 3.510 first 23",
        [
            ("1.010000", "NAVD", ["$IIXTE,A,A,0.100,L,N,A*25"]),
            ("3.510000", "NAVG", STEERED),
        ],
    ),
    (
        "and one that is a microsecond older doesn't", "",
        "1.000 first 23; 1.010 0DF90317#FF3058480000FFFF; 3.510001 first 23",
        [
            ("1.010000", "NAVD", ["$IIXTE,A,A,0.100,L,N,A*25"]),
            ("3.510001", "NAVG", WITHOUT_ERROR),
        ],
    ),
    (
        "the ends of the ranges: 9.990 and 999.9, and 82 bytes", "",
        "1.010 extreme 23; 1.020 0DF90317#FF30C0971A01FFFF; 2.010 extreme 23",
        [
            ("1.020000", "NAVD", ["$IIXTE,A,A,100.000,L,N,A*25"]),
            ("2.010000", "NAVG", [
                "$GPRMB,A,9.990,L,99999,99999,9000.0000,S,18000.0000,W,999.9,359.9,-636.88,V,A*75",
                "$GPAPB,A,A,9.990,L,N,V,V,0.0,T,99999,359.9,T,359.9,T,A*4F", "$GPXTE,A,A,100.000,L,N,A*32",
            ]),
        ],
    ),
    (
        "a tie goes away from zero: half a tenth of a mile, and 2.5 thousandths", "",
        "1.010 near 23; 1.020 0DF90317#FF30CF010000FFFF; 2.010 near 23",
        [
            ("1.020000", "NAVD", ["$IIXTE,A,A,0.003,L,N,A*27"]),
            ("2.010000", "NAVG", [
                "$GPRMB,A,0.003,L,3,4,5738.7645,N,01424.6911,E,0.1,92.0,9.99,V,A*69",
                "$GPAPB,A,A,0.003,L,N,V,V,90.0,T,4,92.0,T,92.0,T,A*71", "$GPXTE,A,A,0.003,L,N,A*30",
            ]),
        ],
    ),
    (
        "what isn't there: the bearing of the leg, the distance, the position", "",
        "1.010 trackless 23; 1.020 0DF90317#FF3058480000FFFF; 2.010 trackless 23; 2.510 distanceless 23; 2.520 unplaced 23; "
        "2.530 0DF90317#FF3058480000FFFF; 2.540 unplaced 23",
        [
            ("1.020000", "NAVD", ["$IIXTE,A,A,0.100,L,N,A*25"]),
            ("2.010000", "NAVG", [
                "$GPRMB,A,0.100,L,3,4,5738.7645,N,01424.6911,E,12.3,92.0,9.99,V,A*5A",
                "$GPAPB,V,V,0.100,L,N,V,V,,T,4,92.0,T,92.0,T,N*6B", "$GPXTE,A,A,0.100,L,N,A*32",
            ]),
            ("2.510000", "NAVG", [
                "$GPRMB,V,0.100,L,3,4,5738.7645,N,01424.6911,E,,92.0,9.99,V,N*5C",
                "$GPAPB,A,A,0.100,L,N,V,V,90.0,T,4,92.0,T,92.0,T,A*73", "$GPXTE,A,A,0.100,L,N,A*32",
            ]),
            ("2.530000", "NAVD", ["$IIXTE,A,A,0.100,L,N,A*25"]),
            ("2.540000", "NAVG", [
                "$GPRMB,V,0.100,L,3,4,,,,,12.3,92.0,9.99,V,N*7C",
                "$GPAPB,A,A,0.100,L,N,V,V,90.0,T,4,92.0,T,92.0,T,A*73", "$GPXTE,A,A,0.100,L,N,A*32",
            ]),
        ],
    ),
    (
        "a waypoint above 99999 isn't there, and waypoint 0 is", "",
        "1.010 renumbered 23; 1.020 0DF90317#FF3058480000FFFF; 2.010 renumbered 23",
        [
            ("1.020000", "NAVD", ["$IIXTE,A,A,0.100,L,N,A*25"]),
            ("2.010000", "NAVG", [
                "$GPRMB,A,0.100,L,,0,5738.7645,N,01424.6911,E,12.3,92.0,9.99,V,A*6D",
                "$GPAPB,A,A,0.100,L,N,V,V,90.0,T,0,92.0,T,92.0,T,A*77", "$GPXTE,A,A,0.100,L,N,A*32",
            ]),
        ],
    ),
    (
        "a claim that takes the address forgets destination and error", "",
        "1.010 first 23; 1.020 0DF90317#FF3058480000FFFF; 2.000 18EEFF17#0200C0FF00823280; 2.010 first 23; 3.010 first 23",
        [
            ("1.020000", "NAVD", ["$IIXTE,A,A,0.100,L,N,A*25"]),
            ("3.010000", "NAVG", WITHOUT_ERROR),
        ],
    ),
    (
        "33 bytes are short", "",
        "1.010 short 23",
        [
            ("1.010000", None, "rule 22 src=23 pgn=129284"),
        ],
    ),
    (
        "frames of a device without an address", "",
        "1.000 0DF90419#0022FF38DF220000; 1.010 0DF90319#FF3058480000FFFF",
        [
            ("1.000000", None, "rule 10 src=25 pgn=129284"),
            ("1.010000", None, "rule 10 src=25 pgn=129283"),
        ],
    ),
    (
        "a lost frame, one that is overdue, one too many, and one of an address that is taken", "slots = 1\n",
        "1.000 0DF90417#0022FF38DF220000; 1.001 0DF90417#023DB93E03000000; 2.000 0DF90417#0022FF38DF220000; 2.001 0DF90418#0022FF38DF220000; "
        "2.751 tick; 3.000 0DF90417#0022FF38DF220000; 3.001 18EEFF17#0200C0FF00823280",
        [
            ("1.001000", None, "rule 11 src=23 pgn=129284"),
            ("2.001000", None, "rule 15 src=24 pgn=129284"),
            ("2.751000", None, "rule 16 src=23 pgn=129284"),
            ("3.001000", None, "rule 17 src=23 pgn=129284"),
        ],
    ),
    (
        "a device that isn't listed", 'sources = ["unique=6"]\nothers = false\n',
        "1.010 first 23; 1.020 0DF90317#FF3058480000FFFF; 2.010 first 23",
        [
            ("1.020000", "NAVD", ["$IIXTE,A,A,0.100,L,N,A*25"]),
        ],
    ),
    (
        "plain sentences have the legs, and no error of the row", '[plain]\ngroup = "PLAN"\n',
        "1.010 first 23; 1.020 0DF90317#FF3058480000FFFF; 2.010 first 23",
        [
            ("1.020000", "NAVD", ["$IIXTE,A,A,0.100,L,N,A*25"]),
            ("2.010000", "NAVG", STEERED),
            ("2.010000", "PLAN", STEERED),
        ],
    ),
    (
        "pauses of plain sentences hold no leg back", '[plain]\ngroup = "PLAN"\nevery_ms = 1000\n',
        "1.010 first 23; 1.020 0DF90317#FF3058480000FFFF; 1.110 first 23; 1.210 first 23",
        [
            ("1.020000", "NAVD", ["$IIXTE,A,A,0.100,L,N,A*25"]),
            ("1.110000", "NAVG", STEERED),
            ("1.110000", "PLAN", STEERED),
            ("1.210000", "NAVG", STEERED),
            ("1.210000", "PLAN", STEERED),
        ],
    ),
)
