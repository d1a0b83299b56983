      DO 10 I=1,.TRUE.
   10 CONTINUE
      END
