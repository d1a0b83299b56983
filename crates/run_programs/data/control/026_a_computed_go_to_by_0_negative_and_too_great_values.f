      DO 40 I=-2,5
      GO TO (10,20,30),I
      WRITE (6,50) I
      GO TO 40
   10 WRITE (6,60) I,10
      GO TO 40
   20 WRITE (6,60) I,20
      GO TO 40
   30 WRITE (6,60) I,30
   40 CONTINUE
   50 FORMAT (I3,' NONE')
   60 FORMAT (2I3)
      END
