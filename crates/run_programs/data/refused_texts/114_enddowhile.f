      ENDDOWHILE
      END
