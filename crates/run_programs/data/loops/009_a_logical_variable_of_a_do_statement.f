      LOGICAL L
      DO 10 L=1,3
   10 CONTINUE
      END
