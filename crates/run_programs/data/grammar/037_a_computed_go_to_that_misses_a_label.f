      I=1
      GO TO (10,20) I
   10 CONTINUE
      END
