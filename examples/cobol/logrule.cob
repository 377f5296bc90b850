      *> A rule over a logbook: the entries of a file that the rule is
      *> true of, and those that it stops at. Description and rule are
      *> read as printed and planned once; the entries are laid one
      *> after another and swept.
       IDENTIFICATION DIVISION.
       PROGRAM-ID. LOGRULE.
       ENVIRONMENT DIVISION.
       INPUT-OUTPUT SECTION.
       FILE-CONTROL.
           COPY "logfiles.cpy".
           SELECT LOGBOOK-FILE     ASSIGN TO "logbook.entries"
               ORGANIZATION IS LINE SEQUENTIAL.
       DATA DIVISION.
       FILE SECTION.
       COPY "logcards.cpy".
       FD  LOGBOOK-FILE.
       01  LOG-ENTRY                PIC X(80).
       WORKING-STORAGE SECTION.
       COPY "oboecurlew.cpy".
       COPY "logtabs.cpy".
      *> As many as are swept by one call: few, so that the sample
      *> takes more calls than one.
       78  ENTRIES-AT-ONCE          VALUE 4.
       01  ENTRY-BYTES.
           05  FILLER               PIC X(ENTRY-LINE-SIZE)
                                    OCCURS ENTRIES-AT-ONCE.
       01  SWEEP-ANSWERS.
           05  SWEEP-ANSWER         OCCURS ENTRIES-AT-ONCE.
               10  VERDICT          BINARY-LONG UNSIGNED.
                   88  RULE-FALSE   VALUE ENTRY-FALSE.
                   88  RULE-TRUE    VALUE ENTRY-TRUE.
                   88  RULE-STOPPED VALUES NUMERIC-DATA-STOP
                                    LETTERS-STOP.
               10  STOP-CONDITION   BINARY-LONG UNSIGNED.
               10  STOP-BYTE        BINARY-LONG UNSIGNED.
               10  HOW-MANY-JUDGED  BINARY-LONG UNSIGNED.
       01  SWEEP-LENGTHS.
           05  ENTRY-BYTE-COUNT     BINARY-DOUBLE UNSIGNED VALUE 0.
           05  ANSWER-ROOM          BINARY-DOUBLE UNSIGNED VALUE 0.
       01  NEXT-BYTE                PIC 9(4).
       01  LAID                     PIC 99.
       01  N                        PIC 99.
       01  ENTRY-NUMBER             PIC 99 VALUE 0.
       01  TOTALS.
           05  TRUE-TOTAL           PIC 99 VALUE 0.
           05  FALSE-TOTAL          PIC 99 VALUE 0.
           05  STOPPED-TOTAL        PIC 99 VALUE 0.
       PROCEDURE DIVISION.
       MAIN-LINE.
           PERFORM PREPARE-RULE
           COMPUTE ANSWER-ROOM = ENTRIES-AT-ONCE * NUMBERS-FOR-AN-ENTRY
           OPEN INPUT LOGBOOK-FILE
           PERFORM READ-ENTRY
           PERFORM UNTIL AT-END-OF-FILE
               PERFORM LAY-ENTRIES
               PERFORM SWEEP-ENTRIES
           END-PERFORM
           CLOSE LOGBOOK-FILE
           PERFORM SAY-TOTALS
           STOP RUN.
       READ-ENTRY.
           SET NOT-AT-END-OF-FILE TO TRUE
           READ LOGBOOK-FILE
               AT END SET AT-END-OF-FILE TO TRUE
           END-READ.
       LAY-ENTRIES.
           MOVE 1 TO NEXT-BYTE
           PERFORM VARYING LAID FROM 0 BY 1
               UNTIL LAID = ENTRIES-AT-ONCE OR AT-END-OF-FILE
               STRING LOG-ENTRY (1:ENTRY-SIZE) DELIMITED BY SIZE
                   INTO ENTRY-BYTES
                   WITH POINTER NEXT-BYTE
               END-STRING
               PERFORM READ-ENTRY
           END-PERFORM
           COMPUTE ENTRY-BYTE-COUNT = NEXT-BYTE - 1.
       SWEEP-ENTRIES.
           CALL STATIC "oboecurlew_sweep" USING
               BY REFERENCE ITEM-NUMBERS    BY VALUE ITEM-COUNT
               BY REFERENCE LITERAL-NUMBERS BY VALUE LITERAL-COUNT
               BY REFERENCE LITERAL-BYTES   BY VALUE BYTE-COUNT
               BY REFERENCE CONDITION-NAMES BY VALUE NAME-COUNT
               BY REFERENCE PLAN-NUMBERS    BY VALUE PLAN-COUNT
               BY REFERENCE ENTRY-BYTES     BY VALUE ENTRY-BYTE-COUNT
               BY VALUE ENTRY-SIZE
               BY VALUE SWITCHES
               BY REFERENCE SWEEP-ANSWERS   BY VALUE ANSWER-ROOM
               BY REFERENCE OBOECURLEW-ANSWER
               RETURNING OBOECURLEW-REFUSAL
           END-CALL
           PERFORM STOP-IF-REFUSED
           PERFORM VARYING N FROM 1 BY 1 UNTIL N > LAID
               PERFORM SAY-VERDICT
           END-PERFORM.
       SAY-VERDICT.
           ADD 1 TO ENTRY-NUMBER
           MOVE ENTRY-NUMBER TO SHOWN-NUMBER
           EVALUATE TRUE
               WHEN RULE-TRUE (N)
                   ADD 1 TO TRUE-TOTAL
                   DISPLAY "ENTRY" SHOWN-NUMBER ": TRUE, "
                       NO ADVANCING
                   PERFORM SAY-JUDGED
               WHEN RULE-FALSE (N)
                   ADD 1 TO FALSE-TOTAL
               WHEN RULE-STOPPED (N)
                   ADD 1 TO STOPPED-TOTAL
                   PERFORM FIND-STOP-ITEM
                   DISPLAY "ENTRY" SHOWN-NUMBER ": STOPS AT "
                       FUNCTION TRIM (ITEM-NAME) ", " NO ADVANCING
                   PERFORM SAY-JUDGED
           END-EVALUATE.
       SAY-JUDGED.
           MOVE HOW-MANY-JUDGED (N) TO SHOWN-NUMBER
           DISPLAY FUNCTION TRIM (SHOWN-NUMBER) " JUDGED".
      *> The elementary item that has the byte at which the rule stops.
       FIND-STOP-ITEM.
           PERFORM VARYING ROW-NUMBER FROM 1 BY 1
               UNTIL NOT ROW-IS-GROUP (ROW-NUMBER)
                 AND STOP-BYTE (N) >= ROW-OFFSET (ROW-NUMBER)
                 AND STOP-BYTE (N) < ROW-OFFSET (ROW-NUMBER)
                                     + ROW-SIZE (ROW-NUMBER)
               CONTINUE
           END-PERFORM
           PERFORM FIND-ITEM-NAME.
       SAY-TOTALS.
           MOVE ENTRY-NUMBER TO SHOWN-NUMBER
           DISPLAY SHOWN-NUMBER " ENTRIES:" NO ADVANCING
           MOVE TRUE-TOTAL TO SHOWN-NUMBER
           DISPLAY SHOWN-NUMBER " TRUE," NO ADVANCING
           MOVE FALSE-TOTAL TO SHOWN-NUMBER
           DISPLAY SHOWN-NUMBER " FALSE," NO ADVANCING
           MOVE STOPPED-TOTAL TO SHOWN-NUMBER
           DISPLAY SHOWN-NUMBER " STOPPED".
       COPY "logread.cpy".
