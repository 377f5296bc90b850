      *> The texts of a description and a rule, and the tables that
      *> they are read into. A text's line is TEXT-LINE-SIZE bytes;
      *> what a line does not fill is blank, as between words.
       78  TEXT-LINE-SIZE           VALUE 80.
       78  ENTRY-LINE-SIZE          VALUE 80.
       78  DESCRIPTION-LINES        VALUE 51.
       78  RULE-LINES               VALUE 25.
       01  DESCRIPTION-TEXT         VALUE SPACES.
           05  DESCRIPTION-PART     PIC X(TEXT-LINE-SIZE)
                                    OCCURS DESCRIPTION-LINES.
       01  RULE-TEXT                VALUE SPACES.
           05  RULE-PART            PIC X(TEXT-LINE-SIZE)
                                    OCCURS RULE-LINES.
       01  ITEM-NUMBERS.
           05  ITEM-ROW             OCCURS TABLE-ROWS.
               10  ROW-KIND         BINARY-LONG UNSIGNED.
                   88  ROW-IS-GROUP VALUES GROUP-ROW NUMERIC-GROUP-ROW.
               10  ROW-OFFSET       BINARY-LONG UNSIGNED.
               10  ROW-SIZE         BINARY-LONG UNSIGNED.
               10  ROW-SCALE        BINARY-LONG UNSIGNED.
               10  ROW-DIGITS       BINARY-LONG UNSIGNED.
       01  PLACES.
           05  NAME-PLACE           BINARY-LONG UNSIGNED
                                    OCCURS TABLE-ROWS.
       01  CONDITION-NAMES.
           05  CONDITION-NUMBER     BINARY-LONG UNSIGNED
                                    OCCURS NAME-NUMBERS.
       01  CONDITION-PLACES.
           05  CONDITION-PLACE      BINARY-LONG UNSIGNED
                                    OCCURS TABLE-ROWS.
       01  LITERAL-NUMBERS.
           05  LITERAL-NUMBER       BINARY-LONG UNSIGNED
                                    OCCURS TABLE-NUMBERS.
       01  LITERAL-BYTES            PIC X(LITERAL-ROOM).
       01  TOKENS.
           05  TOKEN                BINARY-LONG UNSIGNED
                                    OCCURS CONDITION-TOKENS.
       01  PLAN-NUMBERS.
           05  PLAN-NUMBER          BINARY-LONG UNSIGNED
                                    OCCURS PLAN-ROOM-NUMBERS.
      *> How long the texts are, what the tables have room for, and
      *> what they hold.
       01  LENGTHS.
           05  DESCRIPTION-SIZE     BINARY-DOUBLE UNSIGNED
                                    VALUE LENGTH OF DESCRIPTION-TEXT.
           05  RULE-SIZE            BINARY-DOUBLE UNSIGNED
                                    VALUE LENGTH OF RULE-TEXT.
           05  ROW-ROOM             BINARY-DOUBLE UNSIGNED
                                    VALUE TABLE-NUMBERS.
           05  PLACE-ROOM           BINARY-DOUBLE UNSIGNED
                                    VALUE TABLE-ROWS.
           05  NAME-ROOM            BINARY-DOUBLE UNSIGNED
                                    VALUE NAME-NUMBERS.
           05  BYTE-ROOM            BINARY-DOUBLE UNSIGNED
                                    VALUE LITERAL-ROOM.
           05  TOKEN-ROOM           BINARY-DOUBLE UNSIGNED
                                    VALUE CONDITION-TOKENS.
           05  PLAN-ROOM            BINARY-DOUBLE UNSIGNED
                                    VALUE PLAN-ROOM-NUMBERS.
           05  ITEM-COUNT           BINARY-DOUBLE UNSIGNED VALUE 0.
           05  LITERAL-COUNT        BINARY-DOUBLE UNSIGNED VALUE 0.
           05  BYTE-COUNT           BINARY-DOUBLE UNSIGNED VALUE 0.
           05  NAME-COUNT           BINARY-DOUBLE UNSIGNED VALUE 0.
           05  TOKEN-COUNT          BINARY-DOUBLE UNSIGNED VALUE 0.
           05  PLAN-COUNT           BINARY-DOUBLE UNSIGNED VALUE 0.
           05  ENTRY-SIZE           BINARY-DOUBLE UNSIGNED VALUE 0.
       01  SWITCHES                 BINARY-CHAR UNSIGNED
                                    VALUE ALL-SWITCHES-OFF.
       01  END-MARK                 PIC X VALUE "N".
           88  AT-END-OF-FILE       VALUE "Y".
           88  NOT-AT-END-OF-FILE   VALUE "N".
       01  LINE-NUMBER              PIC 99 VALUE 0.
       01  ROW-NUMBER               PIC 99.
       01  NAME-START               PIC 9(4).
       01  ITEM-NAME                PIC X(30).
       01  SHOWN-NUMBER             PIC Z9.
       01  SHOWN-VALUE              PIC ZZZ9.
