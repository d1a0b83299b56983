      INTEGER A(2)
      GO TO (10,10) A(3)
   10 CONTINUE
      END
