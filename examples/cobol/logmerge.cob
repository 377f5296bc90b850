      *> Two members' copies of a logbook, merged entry by entry with
      *> the copy that both began from. Description and rule are read
      *> as printed; what both changed, and not alike, goes by the
      *> rule, and where the rule stops the item is listed.
       IDENTIFICATION DIVISION.
       PROGRAM-ID. LOGMERGE.
       ENVIRONMENT DIVISION.
       INPUT-OUTPUT SECTION.
       FILE-CONTROL.
           COPY "logfiles.cpy".
           SELECT OLD-FILE         ASSIGN TO "old.entries"
               ORGANIZATION IS LINE SEQUENTIAL.
           SELECT FIRST-FILE       ASSIGN TO "first.entries"
               ORGANIZATION IS LINE SEQUENTIAL.
           SELECT SECOND-FILE      ASSIGN TO "second.entries"
               ORGANIZATION IS LINE SEQUENTIAL.
           SELECT MERGED-FILE      ASSIGN TO "merged.entries"
               ORGANIZATION IS LINE SEQUENTIAL.
       DATA DIVISION.
       FILE SECTION.
       COPY "logcards.cpy".
       FD  OLD-FILE.
       01  OLD-ENTRY                PIC X(80).
       FD  FIRST-FILE.
       01  FIRST-ENTRY              PIC X(80).
       FD  SECOND-FILE.
       01  SECOND-ENTRY             PIC X(80).
       FD  MERGED-FILE.
       01  MERGED-ENTRY             PIC X(80).
       WORKING-STORAGE SECTION.
       COPY "oboecurlew.cpy".
       COPY "logtabs.cpy".
       01  CONTESTED-ROWS.
           05  CONTESTED-ROW        BINARY-LONG UNSIGNED
                                    OCCURS TABLE-ROWS.
       01  N                        PIC 99.
       01  ENTRY-NUMBER             PIC 99 VALUE 0.
       01  CONTESTED-TOTAL          PIC 99 VALUE 0.
       01  SHOWN-ENTRY              PIC 9.
       PROCEDURE DIVISION.
       MAIN-LINE.
           PERFORM PREPARE-RULE
           PERFORM MERGE-FILES
           MOVE ENTRY-NUMBER TO SHOWN-NUMBER
           DISPLAY SHOWN-NUMBER " ENTRIES, " WITH NO ADVANCING
           MOVE CONTESTED-TOTAL TO SHOWN-NUMBER
           DISPLAY SHOWN-NUMBER " CONTESTED"
           STOP RUN.
      *> The three files have their entries in the same order.
       MERGE-FILES.
           OPEN INPUT OLD-FILE FIRST-FILE SECOND-FILE
           OPEN OUTPUT MERGED-FILE
           SET NOT-AT-END-OF-FILE TO TRUE
           PERFORM READ-ENTRIES
           PERFORM UNTIL AT-END-OF-FILE
               ADD 1 TO ENTRY-NUMBER
               PERFORM MERGE-ENTRY
               PERFORM READ-ENTRIES
           END-PERFORM
           CLOSE OLD-FILE FIRST-FILE SECOND-FILE MERGED-FILE.
       READ-ENTRIES.
           READ OLD-FILE AT END SET AT-END-OF-FILE TO TRUE END-READ
           READ FIRST-FILE AT END SET AT-END-OF-FILE TO TRUE END-READ
           READ SECOND-FILE AT END SET AT-END-OF-FILE TO TRUE END-READ.
       MERGE-ENTRY.
           MOVE SPACES TO MERGED-ENTRY
           CALL STATIC "oboecurlew_merge" USING
               BY REFERENCE ITEM-NUMBERS    BY VALUE ITEM-COUNT
               BY REFERENCE LITERAL-NUMBERS BY VALUE LITERAL-COUNT
               BY REFERENCE LITERAL-BYTES   BY VALUE BYTE-COUNT
               BY REFERENCE CONDITION-NAMES BY VALUE NAME-COUNT
               BY REFERENCE PLAN-NUMBERS    BY VALUE PLAN-COUNT
               BY REFERENCE OLD-ENTRY       BY VALUE ENTRY-SIZE
               BY REFERENCE FIRST-ENTRY     BY VALUE ENTRY-SIZE
               BY REFERENCE SECOND-ENTRY    BY VALUE ENTRY-SIZE
               BY VALUE SWITCHES
               BY REFERENCE MERGED-ENTRY    BY VALUE ENTRY-SIZE
               BY REFERENCE CONTESTED-ROWS  BY VALUE PLACE-ROOM
               BY REFERENCE OBOECURLEW-ANSWER
               RETURNING OBOECURLEW-REFUSAL
           END-CALL
           PERFORM STOP-IF-REFUSED
           WRITE MERGED-ENTRY
           PERFORM VARYING N FROM 1 BY 1 UNTIL N > SECOND-WRITTEN
               PERFORM LIST-CONTESTED
           END-PERFORM.
      *> Rows are counted from 0.
       LIST-CONTESTED.
           ADD 1 TO CONTESTED-TOTAL
           COMPUTE ROW-NUMBER = CONTESTED-ROW (N) + 1
           PERFORM FIND-ITEM-NAME
           MOVE ENTRY-NUMBER TO SHOWN-ENTRY
           DISPLAY "ENTRY " SHOWN-ENTRY ": "
               FUNCTION TRIM (ITEM-NAME) " IS CONTESTED".
       COPY "logread.cpy".
