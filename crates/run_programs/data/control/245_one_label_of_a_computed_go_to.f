   10 CONTINUE
      GO TO (10,20) I
      END
