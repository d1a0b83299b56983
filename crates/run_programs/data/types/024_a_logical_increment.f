      LOGICAL L
      DO 10 I=1,3,L
   10 CONTINUE
      END
