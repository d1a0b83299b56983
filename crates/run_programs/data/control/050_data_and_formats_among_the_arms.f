      IF (I.EQ.5) THEN
      DATA I/5/
   10 FORMAT (I3,L2)
      WRITE (6,10) I,.TRUE.
      ELSE
      WRITE (6,20)
   20 FORMAT ('NOT HERE')
      END IF
      END
