      LOGICAL L
      GO TO (10),L
   10 END
