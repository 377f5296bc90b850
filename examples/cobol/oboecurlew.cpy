      *> What a program needs to call Oboecurlew: the refusal that a
      *> call returns, the answer that it writes, and names for the
      *> numbers of rows, tokens, plans and lists.
      *>
      *> CALL STATIC "oboecurlew_plan" USING
      *>     BY REFERENCE item-numbers    BY VALUE how-many
      *>     BY REFERENCE literal-numbers BY VALUE how-many
      *>     BY REFERENCE literal-bytes   BY VALUE how-many
      *>     BY REFERENCE name-numbers    BY VALUE how-many
      *>     BY REFERENCE tokens          BY VALUE how-many
      *>     BY REFERENCE output-numbers  BY VALUE how-many
      *>     BY REFERENCE OBOECURLEW-ANSWER
      *>     RETURNING OBOECURLEW-REFUSAL
      *>
      *> The calls, and what each takes in order: a table, text or
      *> record BY REFERENCE and how many numbers or bytes it has BY
      *> VALUE; SWITCHES and SIZE BY VALUE alone; then the answer. What
      *> it writes is in brackets. "Tables" are item-numbers,
      *> literal-numbers, literal-bytes and name-numbers.
      *>
      *> oboecurlew_describe  text, [item-numbers], [places],
      *>                      [name-numbers], [name-places],
      *>                      [literal-numbers], [literal-bytes]
      *> oboecurlew_read      description, text, [tokens],
      *>                      [literal-numbers], [literal-bytes]
      *> oboecurlew_print     description, literal-numbers,
      *>                      literal-bytes, tokens, [text]
      *> oboecurlew_expand    tables, tokens, [tokens]
      *> oboecurlew_plan      tables, tokens, [plan]
      *> oboecurlew_judge     tables, tokens, record, SWITCHES
      *> oboecurlew_run       tables, plan, record, SWITCHES
      *> oboecurlew_sweep     tables, plan, records, SIZE, SWITCHES,
      *>                      [four numbers for each record]
      *> oboecurlew_merge     tables, plan, old, first, second,
      *>                      SWITCHES, [merged], [contested rows]
      *> oboecurlew_differ    item-numbers, first, second,
      *>                      [rows and marks]
      *> oboecurlew_mend      item-numbers, [record], [changes]
      *> oboecurlew_looked_at tables, tokens, record, SWITCHES, [rows]
      *> oboecurlew_looked_at_plan
      *>                      tables, plan, record, SWITCHES, [rows]
      *> oboecurlew_named_items
      *>                      tables, tokens, [rows]
      *> oboecurlew_convert_condition
      *>                      tables, tokens, [tokens]
      *> oboecurlew_convert_plan
      *>                      tables, plan, [plan]
      *>
      *> A row is five numbers: kind, offset, size, scale, digits.
      *> Numbers are BINARY-LONG UNSIGNED, lengths and SIZE
      *> BINARY-DOUBLE UNSIGNED, SWITCHES is BINARY-CHAR UNSIGNED.
      *> A place, a row and a byte are counted from 0.
       01  OBOECURLEW-REFUSAL       BINARY-LONG UNSIGNED.
           88  REFUSED              VALUE 1 THRU 4294967295.
           88  ITEM-TABLE-UNSOUND   VALUE 1.
           88  ITEM-ROW-UNSOUND     VALUE 2.
           88  LITERALS-UNSOUND     VALUE 3.
           88  LITERAL-ROW-UNSOUND  VALUE 4.
           88  TOKEN-COUNT-UNFIT    VALUE 5.
           88  NO-SUCH-TOKEN        VALUE 6.
           88  NO-CONDITION         VALUE 7.
           88  TOO-MANY-BRACKETS    VALUE 8.
           88  TYPING-BROKEN        VALUE 9.
           88  OUTPUT-TOO-SHORT     VALUE 10.
           88  PLAN-UNSOUND         VALUE 11.
           88  RECORD-TOO-SHORT     VALUE 12.
           88  NUMERIC-DATA-INVALID VALUE 13.
           88  TEXT-FAULTY          VALUE 14.
           88  WORD-FAULTY          VALUE 15.
           88  NAME-UNKNOWN         VALUE 16.
           88  LETTERS-INVALID      VALUE 17.
           88  CONDITION-NAME-UNSOUND VALUE 18.
           88  ITEMS-OVERLAP        VALUE 19.
           88  LENGTHS-UNEQUAL      VALUE 20.
           88  RECORDS-UNEVEN       VALUE 21.
      *> The refusal's place, or 1 for true and 0 for false (judge,
      *> run); for refusals 13 and 17 the item's first wrong byte,
      *> counted from 0 in the record; how many simple conditions were
      *> judged; the numbers written to each output. What a call has
      *> nothing to say of is 0.
       01  OBOECURLEW-ANSWER.
           05  ANSWER-VALUE         BINARY-LONG UNSIGNED.
               88  ANSWER-TRUE      VALUE 1.
           05  ANSWER-BYTE          BINARY-LONG UNSIGNED.
           05  CONDITIONS-JUDGED    BINARY-LONG UNSIGNED.
           05  WRITTEN-IN-TURN.
               10  FIRST-WRITTEN    BINARY-LONG UNSIGNED.
               10  SECOND-WRITTEN   BINARY-LONG UNSIGNED.
               10  THIRD-WRITTEN    BINARY-LONG UNSIGNED.
               10  FOURTH-WRITTEN   BINARY-LONG UNSIGNED.
               10  FIFTH-WRITTEN    BINARY-LONG UNSIGNED.
               10  SIXTH-WRITTEN    BINARY-LONG UNSIGNED.
           05  FILLER REDEFINES WRITTEN-IN-TURN.
               10  NUMBERS-WRITTEN  BINARY-LONG UNSIGNED OCCURS 6.
      *> Kinds of rows.
       78  GROUP-ROW                VALUE 0.
       78  ALPHABETIC-ROW           VALUE 1.
       78  ALPHANUMERIC-ROW         VALUE 2.
       78  UNSIGNED-ROW             VALUE 3.
       78  SIGNED-ROW               VALUE 4.
       78  SIGN-LEADING-ROW         VALUE 5.
       78  SIGN-TRAILING-ROW        VALUE 6.
       78  NUMERIC-GROUP-ROW        VALUE 7.
       78  PACKED-ROW               VALUE 8.
       78  PACKED-UNSIGNED-ROW      VALUE 9.
      *> Tokens: an item is its row, a literal FIRST-LITERAL plus its
      *> row, a switch FIRST-ON plus its number, a condition-name
      *> FIRST-CONDITION plus its row, which is 18 numbers: item row, a
      *> count of 1 to 8, that many pairs of literal rows, zeros.
      *> FIRST-OFF is retired: only the converters take it.
       78  FIRST-ITEM               VALUE 0.
       78  FIRST-LITERAL            VALUE 65536.
       78  FIRST-ON                 VALUE 131072.
       78  FIRST-OFF                VALUE 196608.
       78  OPEN-WORD                VALUE 262144.
       78  CLOSE-WORD               VALUE 262145.
       78  NOT-WORD                 VALUE 262146.
       78  AND-WORD                 VALUE 262147.
       78  OR-WORD                  VALUE 262148.
       78  GREATER-WORD             VALUE 262149.
       78  LESS-WORD                VALUE 262150.
       78  EQUAL-WORD               VALUE 262151.
       78  GREATER-OR-EQUAL-WORD    VALUE 262152.
       78  LESS-OR-EQUAL-WORD       VALUE 262153.
       78  NUMERIC-WORD             VALUE 262154.
       78  ALPHABETIC-WORD          VALUE 262155.
       78  ALPHABETIC-LOWER-WORD    VALUE 262156.
       78  ALPHABETIC-UPPER-WORD    VALUE 262157.
       78  POSITIVE-WORD            VALUE 262158.
       78  NEGATIVE-WORD            VALUE 262159.
       78  ZERO-WORD                VALUE 262160.
       78  FIRST-CONDITION          VALUE 327680.
      *> A plan's row is five numbers: subject, relation, object, and
      *> where to go if true and if false, to a later row or to these.
      *> A relation is its word less OPEN-WORD, and NEGATED-RELATION
      *> more where NOT belongs to it.
       78  NEGATED-RELATION         VALUE 32.
       78  TARGET-FALSE             VALUE 65534.
       78  TARGET-TRUE              VALUE 65535.
      *> sweep's four numbers: ENTRY-FALSE, ENTRY-TRUE or a refusal's
      *> number, its place and byte, the conditions judged.
       78  ENTRY-FALSE              VALUE 0.
       78  ENTRY-TRUE               VALUE 1.
       78  NUMERIC-DATA-STOP        VALUE 13.
       78  LETTERS-STOP             VALUE 17.
      *> differ's marks: V, B and I as numbers.
       78  OTHER-VALUE-MARK         VALUE 86.
       78  SAME-VALUE-MARK          VALUE 66.
       78  INVALID-MARK             VALUE 73.
      *> The switch byte is the sum of those that are on.
       78  ALL-SWITCHES-OFF         VALUE 0.
       78  UPSI-0-ON                VALUE 128.
       78  UPSI-1-ON                VALUE 64.
       78  UPSI-2-ON                VALUE 32.
       78  UPSI-3-ON                VALUE 16.
       78  UPSI-4-ON                VALUE 8.
       78  UPSI-5-ON                VALUE 4.
       78  UPSI-6-ON                VALUE 2.
       78  UPSI-7-ON                VALUE 1.
      *> Room that no call needs more of, in numbers or bytes. mend
      *> lists three numbers for a byte; sweep needs
      *> NUMBERS-FOR-AN-ENTRY for each.
       78  DESCRIPTION-BYTES        VALUE 4096.
       78  CONDITION-BYTES          VALUE 2048.
       78  TABLE-ROWS               VALUE 64.
       78  TABLE-NUMBERS            VALUE 320.
       78  NAME-NUMBERS             VALUE 1152.
       78  LITERAL-ROOM             VALUE 6144.
       78  CONDITION-TOKENS         VALUE 256.
       78  EXPANDED-TOKENS          VALUE 634.
       78  PLAN-ROOM-NUMBERS        VALUE 640.
       78  DIFFERENCE-NUMBERS       VALUE 128.
       78  NUMBERS-FOR-A-CHANGE     VALUE 3.
       78  NUMBERS-FOR-AN-ENTRY     VALUE 4.
