      I=1
      STOP 'It''s done'
   10 CONTINUE
      END
