  01 ENTRY.
     05 DRIVE    PIC X(6).
     05 HOURS    PIC 9(4)V9.
     05 LIMIT    PIC 9(4).
     05 DAYS     PIC 9(3).
        88 OVERDUE VALUE 91 THRU 999.
     05 REMARK   PIC X(24).
